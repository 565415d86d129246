//! Storms: a page server and three clients of it, each on a station of its own, and the events that a generator chooses for them. Nothing
//! is read, and counts alone are told.

use std::borrow::Cow;

use crate::generator::Generator;
use crate::head::Config;
use crate::programs::{Client, Last, Made, Program, Server};
use crate::replay::{EVENTS, LAST_BYTES};
use crate::report::Listener;
use crate::station::{State, Station};
use crate::telling::Telling;
use crate::text::{put_decimal, Reader};
use crate::values::{Answer, Call, Pid};
use crate::wire::Header;
use crate::Ending;

/// The server is the process of the first station, and the clients are those of the others.
const SERVER: Pid = Pid(1 << 16 | 1);
const CLIENTS: [Pid; 3] = [Pid(2 << 16 | 1), Pid(3 << 16 | 1), Pid(4 << 16 | 1)];
const MEMORY: u32 = 1_024;
const PAGES: u32 = 16;
/// More requests and rounds than there are events.
const WITHOUT_END: u32 = u32::MAX;
/// The frames of which a delivery chooses one.
const RECENT: usize = 32;
/// Where the frames that are kept have more bytes, all that come no more are forgotten.
const FORGET_BYTES: usize = 65_536;

/// The number of a storm that the word spells.
pub fn number(word: &str) -> Option<u64> {
    let mut reader = Reader::new(word.as_bytes());
    let number = reader.number(EVENTS as u64)?;
    reader.is_at_end().then_some(number)
}

/// Counts how deliveries were answered, what processes were told, and how often this was that nobody had answered in time.
#[derive(Default)]
struct Counts {
    taken: u64,
    old: u64,
    answers: u64,
    timedout: u64,
}

impl Listener for Counts {
    const FINDS_FRAMES: bool = false;

    #[inline(always)]
    fn answer_line(&mut self, line: &[u8]) {
        match line {
            b"taken\n" => self.taken += 1,
            b"old\n" => self.old += 1,
            b"bad\n" | b"begun\n" | b"notyet\n" => {}
            _ => self.answers += 1,
        }
    }

    #[inline]
    fn answer(&mut self, answer: &Answer) {
        self.answers += 1;
        self.timedout += u64::from(matches!(answer, Answer::Refused("timedout")));
    }

    #[inline]
    fn answer_loaded(&mut self, _: &[u8]) {
        self.answers += 1;
    }

    fn begin(&mut self, _: u16, _: u64) {}
    fn answer_tick(&mut self, _: u64) {}
    fn step_line(&mut self, _: &[u8]) {}
    fn step_of(&mut self, _: &[u8], _: Pid) {}
    fn step_ending(&mut self, _: &[u8], _: Pid, _: &[u8]) {}
    fn step_numbers(&mut self, _: &[u8], _: Pid, _: &[u64]) {}
    fn step_hear(&mut self, _: Pid, _: u64, _: Pid) {}
    fn step_found(&mut self, _: Pid, _: Pid) {}
    fn frame(&mut self, _: &Header, _: &[u8], _: usize) {}
}

/// The process of a station.
struct Actor {
    pid: Pid,
    program: Program,
    /// Its next call, or the one that was begun last.
    made: Made,
    /// It collects: its last call was begun, or its program is at the end.
    is_collecting: bool,
}

impl Actor {
    fn new(pid: Pid, program: Program) -> Actor {
        let mut actor = Actor { pid, program, made: Made::new(), is_collecting: false };
        actor.hear(&Last::Nothing);
        actor
    }

    /// It is told this, and makes its next call.
    fn hear(&mut self, last: &Last) {
        self.is_collecting = !self.program.next(self.pid, last, &mut self.made);
    }

    fn call(&mut self, station: &mut Station, config: &Config, out: &mut Telling<Counts>) {
        station.call(config, 0, &self.made.call, &self.made.bytes, &[], out);
        match (&station.processes[0].state, &self.made.call) {
            (State::Ready, Call::Load { start, count }) => {
                let loaded = station.loaded(0, *start, *count);
                self.hear(&loaded.map_or(Last::Nothing, |bytes| Last::Loaded(Cow::Borrowed(bytes))));
            }
            (State::Ready, _) => self.hear(&Last::Nothing),
            _ => self.is_collecting = true,
        }
    }

    fn collect(&mut self, station: &mut Station, out: &mut Telling<Counts>) {
        if let State::Done(answer) = station.processes[0].state {
            self.hear(&Last::Collected(answer));
        }
        station.collect(0, &[], out);
    }
}

struct Storm {
    config: Config,
    generator: Generator,
    stations: Vec<Station>,
    actors: Vec<Actor>,
    out: Telling<Counts>,
    /// The frames that are forgotten, and their bytes.
    frames: usize,
    bytes: usize,
}

impl Storm {
    fn new(seed: u64) -> Storm {
        let config = Config::usual(&[SERVER, CLIENTS[0], CLIENTS[1], CLIENTS[2]].map(|pid| (pid, MEMORY)));
        let stations = config.hosts.iter().map(|&host| Station::new(&config, host)).collect();
        let client = |pid| Actor::new(pid, Program::Client(Client::new(SERVER, PAGES, WITHOUT_END)));
        let mut actors = vec![Actor::new(SERVER, Program::Server(Server::new(PAGES, WITHOUT_END)))];
        actors.extend(CLIENTS.map(client));
        let out = Telling::to(Counts::default());
        Storm { config, generator: Generator::new(seed), stations, actors, out, frames: 0, bytes: 0 }
    }

    /// The next event.
    fn advance(&mut self) {
        match self.generator.draw() % 8 {
            0..3 => self.act(),
            3..6 => self.deliver(),
            _ => {
                let place = self.draw_place();
                self.tick(place);
            }
        }
    }

    /// Forgets frames that come no more, once there are many.
    fn forget(&mut self) {
        if self.out.outbox.bytes.len() > FORGET_BYTES {
            let (frames, bytes) = self.out.outbox.keep_last(RECENT);
            self.frames += frames;
            self.bytes += bytes;
        }
    }

    /// No event more may happen: the frames so far have too many bytes.
    fn is_limited(&self) -> bool {
        self.bytes + self.out.outbox.bytes.len() > LAST_BYTES
    }

    /// One of the four stations, or of their processes.
    fn draw_place(&mut self) -> usize {
        self.generator.draw() as usize % 4
    }

    /// A process calls or collects.
    fn act(&mut self) {
        let place = self.draw_place();
        let (station, actor) = (&mut self.stations[place], &mut self.actors[place]);
        station.begin(0, &mut self.out);
        if actor.is_collecting {
            actor.collect(station, &mut self.out);
        } else {
            actor.call(station, &self.config, &mut self.out);
        }
        station.end(&self.out);
    }

    /// One of the last frames comes to its station. Where there is none the first station ticks.
    fn deliver(&mut self) {
        let frames = self.out.outbox.count();
        if frames == 0 {
            return self.tick(0);
        }
        let back = self.generator.draw() as usize % frames.min(RECENT);
        let frame = frames - 1 - back;
        match self.config.station(self.out.outbox.destination(frame)) {
            Some(place) => self.stations[place].deliver(&self.config, frame, &mut self.out),
            None => self.tick(0),
        }
    }

    fn tick(&mut self, place: usize) {
        let station = &mut self.stations[place];
        station.advance();
        station.begin(0, &mut self.out);
        station.tick(&mut self.out);
        station.end(&self.out);
    }

    fn summary(&self, number: u64) -> Vec<u8> {
        let Counts { taken, old, answers, timedout } = self.out.report;
        let frames = self.frames + self.out.outbox.count();
        let mut text = Vec::new();
        let lines: [(&[u8], u64); 6] = [
            (b"storm ", number),
            (b"frames ", frames as u64),
            (b"taken ", taken),
            (b"old ", old),
            (b"answers ", answers),
            (b"timedout ", timedout),
        ];
        for (word, count) in lines {
            text.extend_from_slice(word);
            put_decimal(&mut text, count);
            text.push(b'\n');
        }
        text
    }
}

/// The summary of the storm of this number: so many events from this seed.
pub fn storm(number: u64) -> (Vec<u8>, Ending) {
    let mut storm = Storm::new(number);
    for _ in 0..number {
        if storm.is_limited() {
            return (Vec::new(), Ending::Limit);
        }
        storm.advance();
        storm.forget();
    }
    (storm.summary(number), Ending::Done)
}
