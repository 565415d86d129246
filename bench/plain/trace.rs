//! Whether the steps of a trace are a run.

use crate::head::{read_head, Config};
use crate::machine::{Applied, Machine, Refusal};
use crate::text::{put_decimal, Reader};
use crate::values::{Call, Pid};
use crate::Ending;

/// A step. Who calls or collects is told by its place among all processes.
enum Step {
    Call { process: usize, call: Call },
    Arrive { sender: Pid, number: u64 },
    Take { pid: Pid },
    Finish { pid: Pid },
    Fail { pid: Pid, is_timed_out: bool },
    Open { sender: Pid, number: u64, moving: u64 },
    Copy { sender: Pid, number: u64, moving: u64, offset: u32, count: u32 },
    EndOk { pid: Pid },
    EndGone { pid: Pid },
    EndTimedOut { pid: Pid },
    Hear { asker: Pid, lookup: u64, pid: Pid },
    Found { asker: Pid, pid: Pid },
    Lost { asker: Pid },
    Collect { process: usize },
}

#[inline(always)]
fn read_step(reader: &mut Reader, config: &Config) -> Option<Step> {
    let step = if reader.skip(b"call ").is_some() {
        let process = config.process(reader.pid()?)?;
        reader.space()?;
        return Some(Step::Call { process, call: reader.call()? });
    } else if reader.skip(b"collect ").is_some() {
        Step::Collect { process: config.process(reader.pid()?)? }
    } else if reader.skip(b"copy ").is_some() {
        let (sender, number) = exchange(reader)?;
        reader.space()?;
        let moving = reader.ordinal()?;
        reader.space()?;
        let offset = reader.count()?;
        reader.space()?;
        Step::Copy { sender, number, moving, offset, count: reader.count()? }
    } else if reader.skip(b"take ").is_some() {
        Step::Take { pid: reader.pid()? }
    } else if reader.skip(b"finish ").is_some() {
        Step::Finish { pid: reader.pid()? }
    } else if reader.skip(b"arrive ").is_some() {
        let (sender, number) = exchange(reader)?;
        Step::Arrive { sender, number }
    } else {
        other_step(reader)?
    };
    reader.end()?;
    Some(step)
}

/// The name of an exchange.
#[inline]
fn exchange(reader: &mut Reader) -> Option<(Pid, u64)> {
    let sender = reader.pid()?;
    reader.space()?;
    Some((sender, reader.ordinal()?))
}

fn other_step(reader: &mut Reader) -> Option<Step> {
    if reader.skip(b"open ").is_some() {
        let (sender, number) = exchange(reader)?;
        reader.space()?;
        Some(Step::Open { sender, number, moving: reader.ordinal()? })
    } else if reader.skip(b"end ").is_some() {
        let pid = reader.pid()?;
        if reader.skip(b" ok").is_some() {
            Some(Step::EndOk { pid })
        } else if reader.skip(b" gone").is_some() {
            Some(Step::EndGone { pid })
        } else {
            reader.skip(b" timedout").map(|()| Step::EndTimedOut { pid })
        }
    } else if reader.skip(b"fail ").is_some() {
        let pid = reader.pid()?;
        if reader.skip(b" timedout").is_some() {
            Some(Step::Fail { pid, is_timed_out: true })
        } else {
            reader.skip(b" noprocess").map(|()| Step::Fail { pid, is_timed_out: false })
        }
    } else if reader.skip(b"hear ").is_some() {
        let (asker, lookup) = exchange(reader)?;
        reader.space()?;
        Some(Step::Hear { asker, lookup, pid: reader.pid()? })
    } else if reader.skip(b"found ").is_some() {
        let asker = reader.pid()?;
        reader.space()?;
        Some(Step::Found { asker, pid: reader.pid()? })
    } else {
        reader.skip(b"lost ")?;
        Some(Step::Lost { asker: reader.pid()? })
    }
}

#[inline(always)]
fn apply(machine: &mut Machine, step: &Step, bytes: &[u8]) -> Applied {
    match *step {
        Step::Call { process, ref call } => machine.call(process, call, bytes),
        Step::Arrive { sender, number } => machine.arrive(sender, number),
        Step::Take { pid } => machine.take(pid),
        Step::Finish { pid } => machine.finish(pid),
        Step::Fail { pid, is_timed_out } => machine.fail(pid, is_timed_out),
        Step::Open { sender, number, moving } => machine.open(sender, number, moving),
        Step::Copy { sender, number, moving, offset, count } => machine.copy(sender, number, moving, offset, count),
        Step::EndOk { pid } => machine.end_ok(pid),
        Step::EndGone { pid } => machine.end_gone(pid),
        Step::EndTimedOut { pid } => machine.end_timed_out(pid),
        Step::Hear { asker, lookup, pid } => machine.hear(asker, lookup, pid),
        Step::Found { asker, pid } => machine.found(asker, pid),
        Step::Lost { asker } => machine.lost(asker),
        Step::Collect { process } => machine.collect(process),
    }
}

/// What is written of a trace. All lines are read, also behind a step that is not made.
pub fn check(text: &[u8]) -> (Vec<u8>, Ending) {
    let mut reader = Reader::new(text);
    let Some(config) = read_head(&mut reader, b"vkernel trace 1\n") else {
        return (Vec::new(), Ending::BadLine(1));
    };
    let mut machine = Machine::new(&config);
    let mut steps = 0;
    let mut verdict = None;
    while !reader.is_at_end() {
        let Some(step) = read_step(&mut reader, &config) else {
            return (Vec::new(), Ending::BadLine(config.lines + steps as usize + 1));
        };
        steps += 1;
        if verdict.is_none() {
            match apply(&mut machine, &step, &reader.bytes) {
                Ok(_) => {}
                Err(Refusal::NotAllowed) => verdict = Some(Ending::NotARun(steps)),
                Err(Refusal::Limit) => verdict = Some(Ending::Limit),
            }
        }
    }
    let mut line = Vec::new();
    let (word, number): (&[u8], u64) = match verdict {
        None => (b"yes ", steps),
        Some(Ending::NotARun(step)) => (b"no ", step),
        Some(_) => return (line, Ending::Limit),
    };
    line.extend_from_slice(word);
    put_decimal(&mut line, number);
    line.push(b'\n');
    (line, verdict.unwrap_or(Ending::Done))
}
