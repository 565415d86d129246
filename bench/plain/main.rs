//! `plain replay`, `plain replay --trace`, `plain check`, `plain run` and `plain storm N`: a plain, fast program of the rules of `vkernel`, for
//! measuring. And `plain stations`, which plays texts of single stations, for comparing.

mod calls;
mod exchange;
mod generator;
mod head;
mod hub;
mod machine;
mod packets;
mod played;
mod programs;
mod replay;
mod report;
mod run;
mod scenario;
mod station;
mod storm;
mod telling;
mod text;
mod trace;
mod values;
mod wire;

use std::io::{Read, Write};
use std::process::ExitCode;

const INPUT_BYTES: u64 = 16_777_216;

/// How the work on a text ends.
pub enum Ending {
    Done,
    NotARun(u64),
    BadLine(usize),
    Limit,
}

fn main() -> ExitCode {
    let words: Vec<_> = std::env::args_os().skip(1).collect();
    let words: Vec<_> = words.iter().map(|word| word.to_str().unwrap_or("")).collect();
    let work: fn(&[u8]) -> (Vec<u8>, Ending) = match words[..] {
        ["replay"] => |text| replay::replay(text, false),
        ["replay", "--trace"] | ["--trace", "replay"] => |text| replay::replay(text, true),
        ["check"] => trace::check,
        ["run"] => run::run,
        ["stations"] => played::played,
        ["storm", word] => match storm::number(word) {
            Some(number) => return end(storm::storm(number)),
            None => return usage(),
        },
        _ => return usage(),
    };
    match read() {
        Ok(text) => end(work(&text)),
        Err(status) => status,
    }
}

/// The input, with a line feed at its end.
fn read() -> Result<Vec<u8>, ExitCode> {
    let mut text = Vec::new();
    if std::io::stdin().lock().take(INPUT_BYTES + 1).read_to_end(&mut text).is_err() {
        return Err(fail(4, "reading failed"));
    }
    if text.len() as u64 > INPUT_BYTES {
        return Err(fail(8, "limit reached"));
    }
    if text.is_empty() {
        return Err(fail(3, "line 1 is not valid"));
    }
    if !text.ends_with(b"\n") {
        text.push(b'\n');
    }
    Ok(text)
}

/// Writes what the work gave.
fn end((output, ending): (Vec<u8>, Ending)) -> ExitCode {
    let mut standard = std::io::stdout().lock();
    if standard.write_all(&output).and_then(|()| standard.flush()).is_err() {
        return fail(5, "writing failed");
    }
    match ending {
        Ending::Done => ExitCode::SUCCESS,
        Ending::NotARun(step) => fail(1, &format!("step {step} is not allowed")),
        Ending::BadLine(line) => fail(3, &format!("line {line} is not valid")),
        Ending::Limit => fail(8, "limit reached"),
    }
}

fn usage() -> ExitCode {
    fail(2, "usage: plain replay [--trace] | check | run | storm N | stations")
}

fn fail(status: u8, text: &str) -> ExitCode {
    eprintln!("plain: {text}");
    ExitCode::from(status)
}
