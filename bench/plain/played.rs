//! Texts of single stations, as `vk_station_tests` has them: stations, frames by name with every byte, and events, behind each of which stands
//! what the station tells of it.

use std::collections::HashMap;

use crate::head::{read_opening, Config};
use crate::replay::{read_event, Event};
use crate::station::Station;
use crate::telling::Telling;
use crate::text::{put_bytes, put_decimal, Reader};
use crate::Ending;

/// A station that is alone in its configuration.
struct Alone {
    config: Config,
    station: Station,
}

impl Alone {
    /// The station of the line `station HOST POOL BYTES`, which has two processes.
    fn of_line(words: &str) -> Option<Alone> {
        let words: Vec<u32> = words.split(' ').map(str::parse).collect::<Result<_, _>>().ok()?;
        let [host, pool, size] = words[..] else { return None };
        let opening = format!("vkernel 2\ntimes 5 4 8\nprocess {host}.1 {size}\nprocess {host}.2 {size}\npool {host} {pool}\n");
        let mut reader = Reader::new(opening.as_bytes());
        let config = read_opening(&mut reader, b"vkernel ").ok().filter(|_| reader.is_at_end())?;
        let station = Station::new(&config, u16::try_from(host).ok()?);
        Some(Alone { config, station })
    }

    /// A call or a collect.
    fn act(&mut self, line: &str, out: &mut Telling) -> Option<()> {
        let line = format!("{line}\n");
        let mut reader = Reader::new(line.as_bytes());
        let event = read_event(&mut reader, &self.config)?;
        let station = &mut self.station;
        station.begin(0, out);
        match event {
            Event::Call { process, call, .. } => {
                station.call(&self.config, process, &call, &reader.bytes, line.as_bytes(), out);
            }
            Event::Collect { process, .. } => station.collect(process, line.as_bytes(), out),
            _ => return None,
        }
        station.end(out);
        Some(())
    }

    fn tick(&mut self, out: &mut Telling) {
        self.station.advance();
        self.station.begin(0, out);
        self.station.tick(out);
        self.station.end(out);
    }

    /// What is told of the event: the Lamport number in place of the event's, the answer and the steps; and the frames by their names, or else
    /// their bytes. Some frames of the outbox are not of the event.
    fn tell(&self, event: &Telling, others: usize, names: &HashMap<Vec<u8>, String>, told: &mut Vec<u8>) {
        put_decimal(told, self.station.number());
        let mut lines = event.report.text.split_inclusive(|&byte| byte == b'\n').skip(1);
        let answer = lines.next().and_then(|line| line.strip_prefix(b"1"));
        told.extend_from_slice(answer.unwrap_or(b"\n"));
        for step in lines.filter(|line| line.starts_with(b"step ")) {
            told.extend_from_slice(step);
        }
        for frame in others..event.outbox.count() {
            let bytes = &event.outbox.bytes[event.outbox.range(frame)];
            told.extend_from_slice(b"frame ");
            match names.get(bytes) {
                Some(name) => told.extend_from_slice(name.as_bytes()),
                None => put_bytes(told, bytes),
            }
            told.push(b'\n');
        }
    }

    /// Plays an event: `call PID CALL`, `collect PID`, `tick COUNT` or `deliver NAME`. Of ticks those with steps or frames are told, and the last.
    fn play(&mut self, line: &str, frames: &Frames, told: &mut Vec<u8>) -> Option<()> {
        if let Some(count) = line.strip_prefix("tick ") {
            for left in (0..count.parse::<u64>().ok()?).rev() {
                let mut out = Telling::new(false);
                self.tick(&mut out);
                if left == 0 || out.report.text.iter().filter(|&&byte| byte == b'\n').count() > 2 {
                    self.tell(&out, 0, &frames.names, told);
                }
            }
            return Some(());
        }
        let mut out = Telling::new(false);
        let mut others = 0;
        if let Some(name) = line.strip_prefix("deliver ") {
            out.outbox.push(frames.frames.get(name)?);
            others = 1;
            self.station.deliver(&self.config, 0, &mut out);
        } else {
            self.act(line, &mut out)?;
        }
        self.tell(&out, others, &frames.names, told);
        Some(())
    }
}

/// The frames of a text by their names, and the names by the frames: of equal frames the first name.
#[derive(Default)]
struct Frames {
    frames: HashMap<String, Vec<u8>>,
    names: HashMap<Vec<u8>, String>,
}

/// The name and the bytes of a line `NAME: HEX` or `NAME: HEX + COUNT`.
fn frame_of(line: &str) -> Option<(String, Vec<u8>)> {
    let (name, digits) = line.split_once(": ")?;
    let (digits, zeros) = digits.split_once(" + ").unwrap_or((digits, "0"));
    let digits: String = digits.chars().filter(|&digit| digit != ' ').collect();
    let pairs = (0..digits.len()).step_by(2);
    let mut bytes: Vec<u8> = pairs.map(|at| u8::from_str_radix(digits.get(at..at + 2)?, 16).ok()).collect::<Option<_>>()?;
    bytes.resize(bytes.len() + zeros.parse::<usize>().ok()?, 0);
    Some((name.to_string(), bytes))
}

impl Frames {
    fn of(text: &str) -> Frames {
        let mut all = Frames::default();
        for (name, bytes) in text.lines().filter(|line| !line.starts_with("# ")).filter_map(frame_of) {
            all.names.entry(bytes.clone()).or_insert_with(|| name.clone());
            all.frames.entry(name).or_insert(bytes);
        }
        all
    }
}

/// The text with what its stations tell; what stood there before is left out.
pub fn played(text: &[u8]) -> (Vec<u8>, Ending) {
    let text = String::from_utf8_lossy(text);
    let frames = Frames::of(&text);
    let mut stations: Vec<Alone> = Vec::new();
    let mut told = Vec::new();
    for (at, line) in text.lines().enumerate() {
        let event = line.split_once("> ");
        if event.is_some() || line.starts_with("station ") || line.is_empty() || line.starts_with("# ") || line.contains(": ") {
            told.extend_from_slice(line.as_bytes());
            told.push(b'\n');
        }
        let done = if let Some((host, event)) = event {
            let station = stations.iter_mut().find(|alone| alone.station.host.to_string() == host);
            station.and_then(|alone| alone.play(event, &frames, &mut told))
        } else if let Some(words) = line.strip_prefix("station ") {
            Alone::of_line(words).map(|alone| stations.push(alone))
        } else {
            Some(())
        };
        if done.is_none() {
            return (told, Ending::BadLine(at + 1));
        }
    }
    (told, Ending::Done)
}
