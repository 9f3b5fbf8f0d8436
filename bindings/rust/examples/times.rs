//! Makes the request of the job on standard input so many times: times 1000 < JOB. A program to count instructions in.
use smithy_bind::{answer, Command};
use std::hint::black_box;
use std::io::{self, Read};
use std::process::ExitCode;

fn main() -> ExitCode {
    match run() {
        Some(()) => ExitCode::SUCCESS,
        None => ExitCode::FAILURE,
    }
}

fn run() -> Option<()> {
    let count: u32 = std::env::args().nth(1)?.parse().ok()?;
    let mut job = Vec::new();
    io::stdin().read_to_end(&mut job).ok()?;
    for _ in 0..count {
        black_box(answer(Command::Request, black_box(&job)).ok()?);
    }
    Some(())
}
