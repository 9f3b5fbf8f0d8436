//! Answers the job on standard input by a command, and ends as the program does: answer request < JOB, answer explain request < JOB,
//! answer aws request < JOB
use smithy_bind::{answer, explain, Command, Refusal};
use std::io::{self, Read, Write};
use std::process::ExitCode;

fn main() -> ExitCode {
    ExitCode::from(run())
}

// The command that these words ask for, and whether its jobs are to be explained.
fn asked(words: &[&str]) -> Option<(bool, Command)> {
    let named = |word: &str| Command::named(word).filter(|_| !word.contains(' '));
    match words {
        [word] => Some((false, named(word)?)),
        ["explain", word] => Some((true, named(word)?)),
        ["aws", word] => Some((false, Command::named(&format!("aws {word}"))?)),
        _ => None,
    }
}

fn run() -> u8 {
    let words: Vec<String> = std::env::args().skip(1).collect();
    let words: Vec<&str> = words.iter().map(String::as_str).collect();
    let Some((explained, command)) = asked(&words) else {
        return 1;
    };
    let mut job = Vec::new();
    if io::stdin().read_to_end(&mut job).is_err() {
        return 4;
    }
    let answered = match explained {
        true => explain(command, &job)
            .map(|line| line.map_or(Vec::new(), |line| (line + "\n").into_bytes())),
        false => answer(command, &job),
    };
    let (text, status) = match answered {
        Ok(text) => (text, 0),
        Err(Refusal::Fault(fault)) => (fault.line().to_vec(), 3),
        Err(refusal) => (Vec::new(), refusal.status()),
    };
    let mut stdout = io::stdout();
    match stdout.write_all(&text).and_then(|()| stdout.flush()) {
        Ok(()) => status,
        Err(_) => 5,
    }
}
