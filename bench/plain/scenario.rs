//! Scenarios: what the processes of a configuration do, the links between stations, and the rounds of the clock.

use crate::head::{read_opening, Config};
use crate::programs::{Client, Program, Script, Server, PAGE_BYTES};
use crate::text::Reader;
use crate::values::Pid;

const PAGES: u64 = 4_096;
const TICKS: u64 = 50_000;

/// What links do with frames, of 256 each, and where their numbers begin.
pub struct Plan {
    pub lose: u8,
    pub double: u8,
    pub hold: u8,
    pub seed: u64,
}

pub struct Scenario {
    pub config: Config,
    /// One for each process, in their order.
    pub programs: Vec<Program>,
    pub plan: Plan,
    pub rounds: u32,
}

/// The scenario of a text, or its first bad line.
pub fn read_scenario(text: &[u8]) -> Result<Scenario, usize> {
    let mut reader = Reader::new(text);
    let config = read_opening(&mut reader, b"vkernel scenario ")?;
    let mut line = config.lines + 1;
    if config.processes.is_empty() {
        return Err(line);
    }
    let mut programs: Vec<_> = config.processes.iter().map(|_| Program::Script(Script::default())).collect();
    loop {
        let start = reader.place();
        if task_line(&mut reader, &config, &mut programs).is_none() {
            reader.go_back(start);
            break;
        }
        line += 1;
    }
    let plan = link_line(&mut reader).ok_or(line)?;
    let most = TICKS / config.hosts.len() as u64;
    let rounds = ticks_line(&mut reader, most).ok_or(line + 1)?;
    if !reader.is_at_end() {
        return Err(line + 2);
    }
    Ok(Scenario { config, programs, plan, rounds })
}

fn link_line(reader: &mut Reader) -> Option<Plan> {
    reader.skip(b"link ")?;
    let mut bytes = [0; 3];
    for byte in &mut bytes {
        *byte = reader.number(255)? as u8;
        reader.space()?;
    }
    let seed = reader.long()?;
    reader.end()?;
    let [lose, double, hold] = bytes;
    Some(Plan { lose, double, hold, seed })
}

fn ticks_line(reader: &mut Reader, most: u64) -> Option<u32> {
    reader.skip(b"ticks ")?;
    let rounds = reader.number(most)? as u32;
    reader.end()?;
    Some(rounds)
}

/// A line that gives a process a call of its script, or its program.
fn task_line(reader: &mut Reader, config: &Config, programs: &mut [Program]) -> Option<()> {
    if reader.skip(b"do ").is_some() {
        let start = reader.place();
        let pid = reader.pid()?;
        reader.space()?;
        reader.call()?;
        let line = reader.since(start);
        let Program::Script(script) = &mut programs[config.process(pid)?] else { return None };
        script.push([b"call ", line].concat());
        Some(())
    } else {
        reader.skip(b"program ")?;
        let pid = reader.pid()?;
        reader.space()?;
        let place = config.process(pid)?;
        let (program, memory) = program(reader)?;
        reader.end()?;
        let is_idle = matches!(&programs[place], Program::Script(script) if script.is_empty());
        if !is_idle || (config.processes[place].1 as usize) < memory {
            return None;
        }
        programs[place] = program;
        Some(())
    }
}

/// A program, and the bytes of memory that it needs.
fn program(reader: &mut Reader) -> Option<(Program, usize)> {
    let server: Option<Pid> = if reader.skip(b"pageserver ").is_some() {
        None
    } else {
        reader.skip(b"pageclient ")?;
        let server = reader.pid()?;
        reader.space()?;
        Some(server)
    };
    let pages = reader.positive(PAGES)? as u32;
    reader.space()?;
    let count = reader.count()?;
    Some(match server {
        None => (Program::Server(Server::new(pages, count)), PAGE_BYTES),
        Some(server) => (Program::Client(Client::new(server, pages, count)), 2 * PAGE_BYTES),
    })
}
