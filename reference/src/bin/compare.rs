//! Runs generated scripts through a program and through this implementation, and compares the accounts:
//! `compare PROGRAM COUNT [SEED]`.

use reference::generator::{Random, script};
use reference::script::account;
use std::io::Write;
use std::process::{Command, ExitCode, Stdio};

fn run(program: &str, script: &[u8]) -> std::io::Result<Vec<u8>> {
    let mut child = Command::new(program).stdin(Stdio::piped()).stdout(Stdio::piped()).spawn()?;
    if let Some(mut stdin) = child.stdin.take() {
        stdin.write_all(script)?;
    }
    let output = child.wait_with_output()?;
    if !output.status.success() {
        return Err(std::io::Error::other(format!("the program ended with {}", output.status)));
    }
    Ok(output.stdout)
}

fn main() -> ExitCode {
    let words: Vec<String> = std::env::args().collect();
    let [_, program, count, rest @ ..] = &words[..] else {
        eprintln!("compare PROGRAM COUNT [SEED]");
        return ExitCode::FAILURE;
    };
    let count: u64 = count.parse().unwrap_or(0);
    let seed: u64 = rest.first().and_then(|s| s.parse().ok()).unwrap_or(1);
    let mut random = Random::new(seed);
    let (mut closed, mut refused) = (0, 0);
    for turn in 0..count {
        let bytes = script(&mut random);
        let ours = account(&bytes);
        match run(program, &bytes) {
            Ok(theirs) if theirs == ours.as_bytes() => {}
            Ok(theirs) => {
                eprintln!("script {turn} of seed {seed}: {bytes:02x?}\nhere:\n{ours}there:\n{}", String::from_utf8_lossy(&theirs));
                return ExitCode::FAILURE;
            }
            Err(error) => {
                eprintln!("script {turn} of seed {seed}: {bytes:02x?}: {error}");
                return ExitCode::FAILURE;
            }
        }
        closed += u64::from(ours.contains("Z 1"));
        refused += u64::from(ours.contains('!'));
    }
    println!("{count} scripts alike, of which {closed} close and {refused} have a refusal");
    ExitCode::SUCCESS
}
