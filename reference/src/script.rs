//! The account of a script.

use std::fmt::Write;

/// What a command is refused with: number, layer, place.
type Refusal = (u8, char, usize);

const SERVED_DESKS: u8 = 6;
const SERVED_NUMBERS: u8 = 4;

#[derive(Clone, Copy, PartialEq, Eq)]
enum Stage {
    Set,
    Open,
    Closed,
}

#[derive(Clone, Copy, PartialEq, Eq)]
enum Book {
    Positions,
    Cash,
}

struct Floor {
    desks: u8,
    faulty: u16,
    book: Book,
    stage: Stage,
    /// The figures of each desk.
    figures: Vec<Vec<i64>>,
}

/// How many bytes a command has, by its letter.
fn size(letter: u8) -> Option<usize> {
    match letter {
        b'F' => Some(8),
        b'O' => Some(7),
        b'G' | b'Q' | b'Z' => Some(1),
        _ => None,
    }
}

fn allowed(letter: u8, stage: Option<Stage>) -> bool {
    match letter {
        b'F' => stage.is_none(),
        b'O' | b'G' => stage == Some(Stage::Set),
        b'Q' => matches!(stage, Some(Stage::Open | Stage::Closed)),
        b'Z' => stage == Some(Stage::Open),
        _ => false,
    }
}

fn form(operands: &[u8]) -> Result<Floor, Refusal> {
    let [desks, faults, numbers, factor, code, high, low] = *operands else {
        unreachable!("a form command has seven operands")
    };
    let faulty = u16::from_be_bytes([high, low]);
    let ranges = [
        (2..=16).contains(&desks),
        (1..=64).contains(&numbers),
        faults <= 5,
        factor == 3 || factor == 5,
        code == 1 || code == 2,
    ];
    if let Some(place) = ranges.iter().position(|good| !good) {
        return Err((1, 'D', place));
    }
    if u16::from(factor) * u16::from(faults) >= u16::from(desks) {
        return Err((2, 'D', usize::from(faults)));
    }
    let outside = (0..16).any(|d| d >= desks && faulty >> d & 1 == 1);
    if outside || faulty.count_ones() > u32::from(faults) {
        return Err((3, 'D', faulty.count_ones() as usize));
    }
    let book = if code == 1 { Book::Positions } else { Book::Cash };
    let width = match book {
        Book::Positions => 128,
        Book::Cash => usize::from(desks),
    };
    if desks > SERVED_DESKS || numbers > SERVED_NUMBERS {
        return Err((4, 'D', usize::from(desks) * width * 8));
    }
    let figures = vec![vec![0; width]; usize::from(desks)];
    Ok(Floor { desks, faulty, book, stage: Stage::Set, figures })
}

fn open_figure(floor: &mut Floor, operands: &[u8]) -> Result<(), Refusal> {
    let figure = usize::from(u16::from_be_bytes([operands[0], operands[1]]));
    let amount = i32::from_be_bytes([operands[2], operands[3], operands[4], operands[5]]);
    let (most_figures, range) = match floor.book {
        Book::Positions => (64, -10_000..=10_000),
        Book::Cash => (usize::from(floor.desks), 0..=1_000_000_000),
    };
    if figure >= most_figures {
        return Err((5, 'B', figure));
    }
    if !range.contains(&amount) {
        return Err((6, 'B', 8));
    }
    for desk in &mut floor.figures {
        desk[figure] = i64::from(amount);
    }
    Ok(())
}

fn close(floor: &mut Floor, out: &mut String) {
    floor.stage = Stage::Closed;
    out.push_str("Z 1\n");
    let correct = |d: &usize| floor.faulty >> d & 1 == 0;
    for d in (0..floor.figures.len()).filter(correct) {
        for (i, value) in floor.figures[d].iter().enumerate().filter(|(_, v)| **v != 0) {
            let _ = writeln!(out, "= {d} {i} {value}");
        }
    }
    if floor.book == Book::Positions {
        for d in (0..floor.figures.len()).filter(correct) {
            let _ = writeln!(out, "H {d} {}", -floor.figures[d].iter().sum::<i64>());
        }
    }
}

fn refuse(out: &mut String, (number, layer, place): Refusal, offset: usize) {
    let _ = writeln!(out, "! {number} {layer} {place} {offset}");
}

/// What a script prints.
pub fn account(script: &[u8]) -> String {
    let mut out = String::new();
    let mut floor: Option<Floor> = None;
    let mut at = 0;
    while let Some(&letter) = script.get(at) {
        let stage = floor.as_ref().map(|f| f.stage);
        let fault = match size(letter) {
            None => Some(12),
            Some(_) if !allowed(letter, stage) => Some(13),
            Some(bytes) if at + bytes > script.len() => Some(14),
            Some(_) => None,
        };
        if let Some(number) = fault {
            refuse(&mut out, (number, 'S', at), at);
            return out;
        }
        let end = at + size(letter).unwrap_or(1);
        let operands = &script[at + 1..end];
        match (letter, &mut floor) {
            (b'F', none) => match form(operands) {
                Ok(made) => {
                    *none = Some(made);
                    out.push_str("F\n");
                }
                Err(refusal) => refuse(&mut out, refusal, at),
            },
            (b'O', Some(f)) => match open_figure(f, operands) {
                Ok(()) => out.push_str("O\n"),
                Err(refusal) => refuse(&mut out, refusal, at),
            },
            (b'G', Some(f)) => {
                f.stage = Stage::Open;
                out.push_str("G\n");
            }
            (b'Q', Some(_)) => out.push_str("Q 1\n"),
            (b'Z', Some(f)) => close(f, &mut out),
            _ => unreachable!("the stage was tested"),
        }
        at = end;
    }
    out
}

#[cfg(test)]
mod tests {
    use super::account;

    #[test]
    fn a_day_of_positions() {
        let script = b"F\x04\x01\x04\x03\x01\x00\x04O\x00\x05\xff\xff\xff\xecGZ";
        let text = "F\nO\nG\nZ 1\n= 0 5 -20\n= 1 5 -20\n= 3 5 -20\nH 0 20\nH 1 20\nH 3 20\n";
        assert_eq!(account(script), text);
    }

    #[test]
    fn a_command_cut_short() {
        assert_eq!(account(b"F\x02\x00\x01\x03\x01\x00\x00O\x00"), "F\n! 14 S 8 8\n");
    }
}
