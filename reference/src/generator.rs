//! Scripts from a seed: whole days, with refusals, wrong stages, unknown commands and cut ends among them.

pub struct Random(u64);

impl Random {
    pub fn new(seed: u64) -> Random {
        Random(seed.wrapping_mul(0x9E37_79B9_7F4A_7C15) | 1)
    }

    pub fn next(&mut self) -> u64 {
        self.0 ^= self.0 << 13;
        self.0 ^= self.0 >> 7;
        self.0 ^= self.0 << 17;
        self.0
    }

    pub fn below(&mut self, n: u64) -> u64 {
        (self.next() >> 11) % n
    }

    fn one_in(&mut self, n: u64) -> bool {
        self.below(n) == 0
    }

    fn of<T: Copy>(&mut self, from: &[T]) -> T {
        from[self.below(from.len() as u64) as usize]
    }
}

fn form(random: &mut Random, out: &mut Vec<u8>) {
    let desks = if random.one_in(6) { random.of(&[0, 1, 7, 16, 17, 255]) } else { 2 + random.below(5) as u8 };
    let factor = if random.one_in(12) { random.below(8) as u8 } else { random.of(&[3, 5]) };
    let most = desks.saturating_sub(1) / factor.max(1);
    let faults = if random.one_in(8) { random.below(8) as u8 } else { random.below(u64::from(most) + 1) as u8 };
    let numbers = if random.one_in(8) { random.of(&[0, 5, 64, 65]) } else { 1 + random.below(4) as u8 };
    let book = if random.one_in(12) { random.below(5) as u8 } else { random.of(&[1, 2]) };
    let faulty = match random.below(4) {
        0 => random.next() as u16,
        1 if faults > 0 => 1 << random.below(u64::from(desks.clamp(1, 16))),
        _ => 0,
    };
    out.extend([b'F', desks, faults, numbers, factor, book]);
    out.extend(faulty.to_be_bytes());
}

fn opening(random: &mut Random, out: &mut Vec<u8>) {
    let figure = if random.one_in(6) { random.of(&[63u16, 64, 127, 128, 65535]) } else { random.below(8) as u16 };
    let edges = [0, 1, -1, 10_000, 10_001, -10_000, -10_001, 1_000_000_000, 1_000_000_001, i32::MIN, i32::MAX];
    let amount = if random.one_in(3) { random.of(&edges) } else { random.below(20_001) as i32 - 10_000 };
    out.push(b'O');
    out.extend(figure.to_be_bytes());
    out.extend(amount.to_be_bytes());
}

/// A script.
pub fn script(random: &mut Random) -> Vec<u8> {
    let mut out = Vec::new();
    if random.one_in(20) {
        let bytes = random.below(40);
        return (0..bytes).map(|_| random.next() as u8).collect();
    }
    for _ in 0..=random.below(3) {
        form(random, &mut out);
        if !random.one_in(3) {
            break;
        }
    }
    for _ in 0..random.below(8) {
        opening(random, &mut out);
    }
    for letter in [b'G', b'Q', b'Z', b'Q'] {
        if !random.one_in(12) {
            out.push(letter);
        }
    }
    if random.one_in(8) {
        out.push(random.of(b"FOGQZPCXB!\x00"));
    }
    if random.one_in(6) {
        let keep = random.below(out.len() as u64 + 1) as usize;
        out.truncate(keep);
    }
    out
}
