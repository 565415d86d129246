//! The schedule and its report.

use crate::head::{read_opening, Config};
use crate::station::Station;
use crate::telling::Telling;
use crate::text::Reader;
use crate::values::Call;
use crate::Ending;

pub const EVENTS: usize = 100_000;
/// An event is refused behind more bytes of frames.
pub const LAST_BYTES: usize = 266_076_160;

/// An event. Stations are told by their places, and processes by theirs among all processes.
pub enum Event {
    Call { station: usize, process: usize, call: Call },
    Collect { station: usize, process: usize },
    Tick { station: usize },
    Deliver { to: usize, from: usize, event: u64, output: u64 },
}

/// The event of a line, of processes and stations of the configuration.
#[inline(always)]
pub fn read_event(reader: &mut Reader, config: &Config) -> Option<Event> {
    if reader.skip(b"call ").is_some() {
        let pid = reader.pid()?;
        reader.space()?;
        let call = reader.call()?;
        Some(Event::Call { station: config.station(pid.host())?, process: config.process(pid)?, call })
    } else if reader.skip(b"collect ").is_some() {
        let pid = reader.pid()?;
        reader.end()?;
        Some(Event::Collect { station: config.station(pid.host())?, process: config.process(pid)? })
    } else if reader.skip(b"deliver ").is_some() {
        let to = config.station(reader.station()?)?;
        reader.space()?;
        let from = config.station(reader.station()?)?;
        reader.space()?;
        let event = reader.ordinal()?;
        reader.space()?;
        let output = reader.positive(65_535)?;
        reader.end()?;
        Some(Event::Deliver { to, from, event, output })
    } else {
        reader.skip(b"tick ")?;
        let station = config.station(reader.station()?)?;
        reader.end()?;
        Some(Event::Tick { station })
    }
}

/// The report or the trace of a schedule, as far as it goes.
pub fn replay(text: &[u8], is_trace: bool) -> (Vec<u8>, Ending) {
    let mut reader = Reader::new(text);
    let config = match read_opening(&mut reader, b"vkernel ") {
        Ok(config) => config,
        Err(line) => return (Vec::new(), Ending::BadLine(line)),
    };
    let mut out = Telling::new(is_trace);
    if is_trace {
        out.report.text.extend_from_slice(&text[config.listed.clone()]);
    }
    let mut stations: Vec<Station> = config.hosts.iter().map(|&host| Station::new(&config, host)).collect();
    let mut events = 0;
    let mut is_limited = false;
    while !reader.is_at_end() {
        let start = reader.place();
        let event = read_event(&mut reader, &config);
        let Some(event) = event else {
            return (Vec::new(), Ending::BadLine(config.lines + events + 1));
        };
        if events == EVENTS {
            return (Vec::new(), Ending::Limit);
        }
        events += 1;
        is_limited |= out.outbox.bytes.len() > LAST_BYTES;
        if is_limited {
            continue;
        }
        match event {
            Event::Call { station, process, call } => {
                let station = &mut stations[station];
                station.begin(0, &mut out);
                station.call(&config, station.place(process), &call, &reader.bytes, reader.since(start), &mut out);
                station.end(&out);
            }
            Event::Collect { station, process } => {
                let station = &mut stations[station];
                station.begin(0, &mut out);
                station.collect(station.place(process), reader.since(start), &mut out);
                station.end(&out);
            }
            Event::Tick { station } => {
                let station = &mut stations[station];
                station.advance();
                station.begin(0, &mut out);
                station.tick(&mut out);
                station.end(&out);
            }
            Event::Deliver { to, from, event, output } => {
                let frame = if to == from { None } else { stations[from].frame(event, output) };
                let station = &mut stations[to];
                match frame.filter(|&frame| station.is_addressed(frame, &out)) {
                    None => out.report.missing(station.host),
                    Some(frame) => station.deliver(&config, frame, &mut out),
                }
            }
        }
    }
    if is_limited {
        return (out.report.text, Ending::Limit);
    }
    out.report.end();
    (out.report.text, Ending::Done)
}
