//! Stations as threads: one for each program, one for each station that takes what comes for it, and one that is the clock. They
//! share the stations, each under a lock, and the hub. What happened is written as a schedule.

use std::borrow::Cow;
use std::sync::Mutex;
use std::thread::sleep;
use std::time::Duration;

use crate::head::{Config, USUAL_POOL};
use crate::hub::{locked, places, Fetched, Full, Hub};
use crate::programs::{Last, Made, Program};
use crate::scenario::{read_scenario, Scenario};
use crate::station::{State, Station};
use crate::telling::Telling;
use crate::text::{put_decimal, put_pid};
use crate::values::{Answer, Call, Pid};
use crate::wire::open;
use crate::Ending;

const EVENTS: usize = 100_000;
const EMITTED_BYTES: usize = 268_435_456;
/// The most that the frames of one event have.
const EVENT_BYTES: usize = 2_359_296;
const PACE: Duration = Duration::from_millis(1);

/// What a station did, as lines of a schedule, and the Lamport number and the end of each.
#[derive(Default)]
struct Log {
    text: Vec<u8>,
    lines: Vec<(u64, usize)>,
    /// The bytes of the frames that it emitted.
    bytes: usize,
}

struct Workstation {
    station: Station,
    log: Log,
    /// The processes whose threads wait for an answer, bit by bit.
    waiting: u32,
}

/// What all threads share.
struct Workplace {
    config: Config,
    stations: Vec<Mutex<Workstation>>,
    hub: Hub,
}

/// A thread's access to a station and to the hub, with room for what an event tells.
struct Port<'a> {
    place: &'a Workplace,
    station: usize,
    /// Where it is a process's, the place of that among all.
    process: Option<usize>,
    out: Telling,
    line: Vec<u8>,
}

enum Pumped {
    /// And whether more frames wait.
    Delivered(bool),
    Nothing,
    Stopped,
}

impl Workstation {
    /// Of the processes whose threads wait those that have an answer now, bit by bit.
    fn take_done(&mut self) -> u32 {
        let is_done = |&place: &usize| matches!(self.station.processes[place].state, State::Done(_));
        let done = places(self.waiting).filter(is_done).fold(0, |done, place| done | 1 << place);
        self.waiting &= !done;
        done
    }
}

impl Workplace {
    fn port(&self, station: usize, process: Option<usize>) -> Port<'_> {
        Port { place: self, station, process, out: Telling::new(true), line: Vec::new() }
    }
}

impl Port<'_> {
    /// An event under the station's lock, whose line stands in `line`; then the processes that it gives an answer are told, and the frames of
    /// the outbox from `first` on are posted. Where the event gives nothing it has not happened, and its process waits.
    fn enter<T>(
        &mut self,
        first: usize,
        event: impl FnOnce(&mut Station, &Config, &mut Telling) -> Option<T>,
    ) -> Result<Option<T>, Full> {
        let count = self.place.stations.len();
        let mut workstation = locked(&self.place.stations[self.station]);
        let own = self.process.map_or(0, |process| 1 << workstation.station.place(process));
        let Workstation { station, log, waiting } = &mut *workstation;
        let is_full = log.lines.len() >= EVENTS / count || log.bytes > EMITTED_BYTES / count - EVENT_BYTES;
        let before = self.out.outbox.bytes.len();
        let Some(told) = (if is_full { None } else { event(station, &self.place.config, &mut self.out) }) else {
            *waiting |= own;
            return if is_full { Err(Full) } else { Ok(None) };
        };
        *waiting &= !own;
        log.bytes += self.out.outbox.bytes.len() - before;
        log.text.extend_from_slice(&self.line);
        log.lines.push((self.out.header.number, log.text.len()));
        let (done, first_process) = (workstation.take_done(), workstation.station.first);
        drop(workstation);
        for place in places(done) {
            self.place.hub.ring(first_process + place);
        }
        self.place.hub.post(self.out.header.source, &self.out.outbox, first)?;
        self.out.report.text.clear();
        self.out.outbox.clear();
        Ok(Some(told))
    }

    /// A call of the process with this place among all, and what it is answered at once; nothing where it is begun.
    fn call(&mut self, process: usize, made: &Made) -> Result<Option<Last<'static>>, Full> {
        self.line.clear();
        self.line.extend_from_slice(&made.line);
        let answered = self.enter(0, |station, config, out| {
            station.begin(0, out);
            let caller = station.place(process);
            station.call(config, caller, &made.call, &made.bytes, &[], out);
            station.end(out);
            Some(match (&station.processes[caller].state, &made.call) {
                (State::Ready, Call::Load { start, count }) => Some(loaded(station, caller, *start, *count)),
                (State::Ready, _) => Some(Last::Nothing),
                _ => None,
            })
        })?;
        Ok(answered.flatten())
    }

    /// Waits until the process is done, and collects. Nothing where the hub has stopped before.
    fn collect_waiting(&mut self, process: usize, pid: Pid) -> Result<Option<Answer>, Full> {
        let mut leaves = false;
        loop {
            self.line.clear();
            self.line.extend_from_slice(b"collect ");
            put_pid(&mut self.line, pid);
            self.line.push(b'\n');
            let collected = self.enter(0, |station, _, out| {
                let caller = station.place(process);
                let State::Done(answer) = station.processes[caller].state else { return None };
                station.begin(0, out);
                station.collect(caller, &[], out);
                station.end(out);
                Some(answer)
            })?;
            if collected.is_some() {
                if leaves {
                    self.place.hub.leave(self.station, process);
                }
                return Ok(collected);
            }
            match self.pump()? {
                Pumped::Delivered(has_more) => leaves = has_more,
                Pumped::Nothing => {
                    self.place.hub.wait(self.station, Some(process));
                    leaves = true;
                }
                Pumped::Stopped => return Ok(None),
            }
        }
    }

    /// Fetches once, and delivers what it fetched.
    fn pump(&mut self) -> Result<Pumped, Full> {
        let (frame, has_more) = match self.place.hub.fetch(self.station, self.process)? {
            Fetched::Frame(frame, has_more) => (frame, has_more),
            Fetched::Nothing => return Ok(Pumped::Nothing),
            Fetched::Stopped => return Ok(Pumped::Stopped),
        };
        let host = self.place.config.hosts[self.station];
        self.line.clear();
        if let Some(header) = open(&frame) {
            self.line.extend_from_slice(b"deliver");
            for number in [u64::from(host), u64::from(header.source), header.event, u64::from(header.output)] {
                self.line.push(b' ');
                put_decimal(&mut self.line, number);
            }
            self.line.push(b'\n');
        }
        self.out.outbox.push(&frame);
        self.enter(1, |station, config, out| {
            station.deliver(config, 0, out);
            Some(())
        })?;
        Ok(Pumped::Delivered(has_more))
    }

    fn tick(&mut self) -> Result<(), Full> {
        self.line.clear();
        self.line.extend_from_slice(b"tick ");
        put_decimal(&mut self.line, u64::from(self.place.config.hosts[self.station]));
        self.line.push(b'\n');
        self.enter(0, |station, _, out| {
            station.advance();
            station.begin(0, out);
            station.tick(out);
            station.end(out);
            Some(())
        })?;
        Ok(())
    }
}

/// What a load gives.
fn loaded(station: &Station, caller: usize, start: u32, count: u32) -> Last<'static> {
    station.loaded(caller, start, count).map_or(Last::Nothing, |bytes| Last::Loaded(Cow::Owned(bytes.to_vec())))
}

/// Runs a process by its program, until that is at its end or the hub has stopped.
fn play(place: &Workplace, process: usize, mut program: Program) -> Result<(), Full> {
    let pid = place.config.processes[process].0;
    let Some(station) = place.config.station(pid.host()) else { return Ok(()) };
    let mut port = place.port(station, Some(process));
    let mut made = Made::new();
    let mut last = Last::Nothing;
    while program.next_with_line(pid, &last, &mut made) {
        last = match port.call(process, &made)? {
            Some(answer) => answer,
            None => match port.collect_waiting(process, pid)? {
                Some(answer) => Last::Collected(answer),
                None => return Ok(()),
            },
        };
    }
    place.hub.finished()
}

fn pump_on(place: &Workplace, station: usize) -> Result<(), Full> {
    let mut port = place.port(station, None);
    loop {
        match port.pump()? {
            Pumped::Delivered(_) => {}
            Pumped::Nothing => place.hub.wait(station, None),
            Pumped::Stopped => return Ok(()),
        }
    }
}

/// Ticks all stations so many times, or until the first port hears that the hub has stopped.
fn tick_on(place: &Workplace, rounds: u32) -> Result<(), Full> {
    let mut ports: Vec<_> = (0..place.stations.len()).map(|station| place.port(station, None)).collect();
    for _ in 0..rounds {
        sleep(PACE);
        for port in &mut ports {
            port.tick()?;
        }
        if let Pumped::Stopped = ports[0].pump()? {
            return Ok(());
        }
    }
    Ok(())
}

/// Does a thread's work, and stops the hub where a history is full. Tells whether one was.
fn is_cut(place: &Workplace, work: impl FnOnce(&Workplace) -> Result<(), Full>) -> bool {
    let is_cut = work(place).is_err();
    if is_cut {
        place.hub.stop();
    }
    is_cut
}

/// The schedule of what happens where the programs of a scenario run.
pub fn run(text: &[u8]) -> (Vec<u8>, Ending) {
    let Scenario { config, programs, plan, rounds } = match read_scenario(text) {
        Ok(scenario) => scenario,
        Err(line) => return (Vec::new(), Ending::BadLine(line)),
    };
    let new = |&host: &u16| Mutex::new(Workstation { station: Station::new(&config, host), log: Log::default(), waiting: 0 });
    let stations = config.hosts.iter().map(new).collect();
    let hub = Hub::new(&config, plan);
    let place = Workplace { config, stations, hub };
    let was_cut = std::thread::scope(|scope| {
        let place = &place;
        let mut threads = Vec::new();
        for (process, program) in programs.into_iter().enumerate() {
            threads.push(scope.spawn(move || is_cut(place, |place| play(place, process, program))));
        }
        for station in 0..place.stations.len() {
            threads.push(scope.spawn(move || is_cut(place, |place| pump_on(place, station))));
        }
        threads.push(scope.spawn(move || is_cut(place, |place| tick_on(place, rounds))));
        let cut: Vec<_> = threads.into_iter().map(|thread| thread.join().unwrap_or(true)).collect();
        cut.contains(&true)
    });
    (schedule(&place), if was_cut { Ending::Limit } else { Ending::Done })
}

/// The lines of all stations in one order: by Lamport number, and of equal ones by station.
fn schedule(place: &Workplace) -> Vec<u8> {
    let stations: Vec<_> = place.stations.iter().map(locked).collect();
    let logs: Vec<_> = stations.iter().map(|workstation| &workstation.log).collect();
    let mut keys = Vec::with_capacity(logs.iter().map(|log| log.lines.len()).sum());
    for (station, log) in logs.iter().enumerate() {
        keys.extend(log.lines.iter().enumerate().map(|(line, &(number, _))| (number, station, line)));
    }
    keys.sort_unstable();
    let mut text = opening(&place.config);
    text.reserve(logs.iter().map(|log| log.text.len()).sum());
    for (_, station, line) in keys {
        let log = logs[station];
        let start = if line == 0 { 0 } else { log.lines[line - 1].1 };
        text.extend_from_slice(&log.text[start..log.lines[line].1]);
    }
    text
}

/// The lines of a configuration, in format 1 where that tells all of it.
fn opening(config: &Config) -> Vec<u8> {
    let is_usual = config.is_usual();
    let mut text = if is_usual { b"vkernel 1\n".to_vec() } else { b"vkernel 2\ntimes".to_vec() };
    if !is_usual {
        for number in [u64::from(config.times.tries), config.times.interval, config.times.life] {
            text.push(b' ');
            put_decimal(&mut text, number);
        }
        text.push(b'\n');
    }
    for &(pid, size) in &config.processes {
        text.extend_from_slice(b"process ");
        put_pid(&mut text, pid);
        text.push(b' ');
        put_decimal(&mut text, u64::from(size));
        text.push(b'\n');
    }
    for (&host, &pool) in config.hosts.iter().zip(&config.pools) {
        if pool != USUAL_POOL {
            text.extend_from_slice(b"pool ");
            put_decimal(&mut text, u64::from(host));
            text.push(b' ');
            put_decimal(&mut text, u64::from(pool));
            text.push(b'\n');
        }
    }
    text
}
