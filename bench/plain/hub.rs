//! The links between stations, which threads share, and the bells at which they wait.

use std::collections::VecDeque;
use std::sync::{Condvar, Mutex, MutexGuard, PoisonError};

use crate::generator::Generator;
use crate::head::{Config, STATIONS};
use crate::scenario::Plan;
use crate::wire::{Outbox, EVERY_STATION};

/// The frames that a ring holds; a full one loses its oldest.
const RING: usize = 128;
const ENTRIES: u32 = 200_000;

/// A history has no room for an event more.
pub struct Full;

pub enum Fetched {
    /// And whether more wait behind it.
    Frame(Vec<u8>, bool),
    Nothing,
    Stopped,
}

pub struct Hub {
    links: Mutex<Links>,
    /// Of all processes, and behind these of what delivers at each station.
    bells: Vec<Bell>,
    processes: usize,
}

/// Where a thread waits: whether it was rung since it waited last.
#[derive(Default)]
struct Bell {
    is_rung: Mutex<bool>,
    rung: Condvar,
}

struct Links {
    plan: Plan,
    generator: Generator,
    inboxes: Vec<Inbox>,
    /// The programs that have not come to their end.
    programs: usize,
    is_halted: bool,
    entries: u32,
}

/// Where a frame waits, somebody looks at the inbox yet: who was called when the first one came, or who was called by one that left.
struct Inbox {
    host: u16,
    ring: VecDeque<Vec<u8>>,
    held: Option<Vec<u8>>,
    /// The place of the station's first process among all, and bit by bit those that wait and are to be called.
    first: usize,
    waiting: u32,
}

/// What a lock guards. No thread panics while it holds one.
pub fn locked<T>(mutex: &Mutex<T>) -> MutexGuard<'_, T> {
    mutex.lock().unwrap_or_else(PoisonError::into_inner)
}

impl Bell {
    fn ring(&self) {
        *locked(&self.is_rung) = true;
        self.rung.notify_one();
    }

    fn wait(&self) {
        let mut is_rung = locked(&self.is_rung);
        while !*is_rung {
            is_rung = self.rung.wait(is_rung).unwrap_or_else(PoisonError::into_inner);
        }
        *is_rung = false;
    }
}

impl Hub {
    pub fn new(config: &Config, plan: Plan) -> Hub {
        let processes = config.processes.len();
        let first = |host| config.processes.iter().position(|(pid, _)| pid.host() == host).unwrap_or(0);
        let inbox = |&host: &u16| Inbox { host, ring: VecDeque::with_capacity(RING), held: None, first: first(host), waiting: 0 };
        let generator = Generator::new(plan.seed);
        let inboxes = config.hosts.iter().map(inbox).collect();
        let bells = (0..processes + config.hosts.len()).map(|_| Bell::default()).collect();
        let links = Links { plan, generator, inboxes, programs: processes, is_halted: false, entries: 0 };
        Hub { links: Mutex::new(links), bells, processes }
    }

    /// Posts the frames of the outbox from this one on, which this station emitted.
    pub fn post(&self, source: u16, outbox: &Outbox, first: usize) -> Result<(), Full> {
        if first == outbox.count() {
            return Ok(());
        }
        let mut links = locked(&self.links);
        let mut reached = 0;
        for frame in first..outbox.count() {
            links.enter()?;
            reached |= links.post(source, outbox.destination(frame), &outbox.bytes[outbox.range(frame)]);
        }
        let mut called = [None; STATIONS];
        for station in places(reached) {
            called[station] = links.inboxes[station].next_waiting();
        }
        drop(links);
        for station in places(reached) {
            self.bell(station, called[station]).ring();
        }
        Ok(())
    }

    /// Takes what has waited longest for the station at this place, or hears that the hub has stopped. Where it is a process that fetches,
    /// and nothing is there, it will be called.
    pub fn fetch(&self, station: usize, process: Option<usize>) -> Result<Fetched, Full> {
        let mut links = locked(&self.links);
        if links.is_halted || links.programs == 0 {
            links.enter()?;
            return Ok(Fetched::Stopped);
        }
        let inbox = &mut links.inboxes[station];
        let own = process.map_or(0, |process| inbox.bit(process));
        inbox.waiting &= !own;
        if inbox.is_empty() {
            inbox.waiting |= own;
            return Ok(Fetched::Nothing);
        }
        links.enter()?;
        let inbox = &mut links.inboxes[station];
        let frame = inbox.ring.pop_front().or_else(|| inbox.held.take());
        let has_more = !inbox.is_empty();
        Ok(frame.map_or(Fetched::Nothing, |frame| Fetched::Frame(frame, has_more)))
    }

    /// Waits until the bell of a process, or of what delivers at this station, is rung.
    pub fn wait(&self, station: usize, process: Option<usize>) {
        self.bell(station, process).wait();
    }

    /// The process has an answer to collect.
    pub fn ring(&self, process: usize) {
        self.bells[process].ring();
    }

    /// The process waits no longer. Where frames wait, another is called in its place.
    pub fn leave(&self, station: usize, process: usize) {
        let mut links = locked(&self.links);
        let inbox = &mut links.inboxes[station];
        inbox.waiting &= !inbox.bit(process);
        if !inbox.is_empty() {
            let called = inbox.next_waiting();
            drop(links);
            self.bell(station, called).ring();
        }
    }

    /// One program more has come to its end.
    pub fn finished(&self) -> Result<(), Full> {
        let mut links = locked(&self.links);
        links.enter()?;
        links.programs -= 1;
        let is_last = links.programs == 0;
        drop(links);
        if is_last {
            self.ring_all();
        }
        Ok(())
    }

    pub fn stop(&self) {
        locked(&self.links).is_halted = true;
        self.ring_all();
    }

    fn ring_all(&self) {
        self.bells.iter().for_each(Bell::ring);
    }

    /// The bell of the process, or where none is named of what delivers at the station.
    fn bell(&self, station: usize, process: Option<usize>) -> &Bell {
        &self.bells[process.unwrap_or(self.processes + station)]
    }
}

/// The places of the bits of a word, from the lowest on.
pub fn places(mut word: u32) -> impl Iterator<Item = usize> {
    std::iter::from_fn(move || {
        let place = word.trailing_zeros() as usize;
        word &= word.checked_sub(1)?;
        Some(place)
    })
}

impl Links {
    fn enter(&mut self) -> Result<(), Full> {
        if self.entries == ENTRIES {
            return Err(Full);
        }
        self.entries += 1;
        Ok(())
    }

    /// A draw of the generator, of 256.
    fn draw(&mut self) -> u8 {
        self.generator.draw() as u8
    }

    /// Which inboxes are empty no longer, bit by bit.
    fn post(&mut self, source: u16, destination: u16, frame: &[u8]) -> u32 {
        let mut reached = 0;
        for place in 0..self.inboxes.len() {
            let host = self.inboxes[place].host;
            if host == source || destination != host && destination != EVERY_STATION {
                continue;
            }
            let draws = [self.draw(), self.draw(), self.draw()];
            if draws[0] < self.plan.lose {
                continue;
            }
            let inbox = &mut self.inboxes[place];
            reached |= u32::from(inbox.is_empty()) << place;
            if draws[2] < self.plan.hold {
                if let Some(earlier) = inbox.held.replace(frame.to_vec()) {
                    inbox.push(earlier);
                }
                continue;
            }
            inbox.push(frame.to_vec());
            if draws[1] < self.plan.double {
                inbox.push(frame.to_vec());
            }
        }
        reached
    }
}

impl Inbox {
    fn push(&mut self, frame: Vec<u8>) {
        if self.ring.len() == RING {
            self.ring.pop_front();
        }
        self.ring.push_back(frame);
    }

    fn is_empty(&self) -> bool {
        self.ring.is_empty() && self.held.is_none()
    }

    /// A process that waits, which is to be called no more.
    fn next_waiting(&mut self) -> Option<usize> {
        let place = places(self.waiting).next()?;
        self.waiting &= self.waiting - 1;
        Some(self.first + place)
    }

    fn bit(&self, process: usize) -> u32 {
        1 << (process - self.first)
    }
}
