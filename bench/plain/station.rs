//! A station: its processes, its aliens and its clock; and what collects, ticks and arrivals do. Its calls are in `calls`, what
//! packets do in `packets`.

use crate::head::{Config, Times, POOL};
use crate::report::Listener;
use crate::telling::Telling;
use crate::values::{Answer, Message, Names, Pid, Places};
use crate::wire::{Header, Outputs, EVERY_STATION};

/// A sender in a queue is one of the processes, or behind these an alien.
pub const OWN_SENDERS: usize = 32;
const NOBODY: u8 = 255;

pub enum State {
    Ready,
    Receiving,
    ReceivingSegment {
        start: u32,
        count: u32,
    },
    /// Blocked in a Send to a process of the station. Its message waits at the process with this place, or was taken by it last.
    SendingHere {
        at: u8,
        is_taken: bool,
    },
    /// Blocked in a Send to a process of another station.
    SendingThere,
    MovingTo(Places),
    MovingFrom(Places),
    Asking {
        logical: u32,
    },
    Done(Answer),
}

/// What the station knows of the work in which a process is blocked.
#[derive(Default)]
pub struct Work {
    pub since: u64,
    pub rounds: u32,
    pub acknowledged: u32,
    pub received: u32,
    pub is_fresh: bool,
}

impl Work {
    /// A work that begins or starts anew with a round.
    pub fn begun(now: u64) -> Work {
        Work { since: now, rounds: 1, ..Work::default() }
    }

    /// A packet answers the work.
    pub fn is_answered(&mut self, now: u64) {
        self.since = now;
        self.rounds = 0;
    }
}

/// The move of another station's exchange in which a process is blocked.
pub struct Moving {
    pub partner: Pid,
    pub number: u64,
    pub moving: u64,
}

pub struct Process {
    pub pid: Pid,
    pub is_alive: bool,
    pub memory: Vec<u8>,
    pub state: State,
    pub sends: u64,
    pub lookups: u64,
    /// Of its last Send: target, message and first part, the message that a process of the station is shown, the open move and how many
    /// bytes of it are done.
    pub target: Pid,
    pub message: Message,
    pub part: Vec<u8>,
    pub shown: Message,
    pub opened: u64,
    pub done: u32,
    pub moving: Moving,
    pub work: Work,
    /// The senders whose messages wait.
    queue_first: u8,
    queue_last: u8,
}

impl Process {
    fn new(pid: Pid, size: u32) -> Process {
        Process {
            pid,
            is_alive: true,
            memory: vec![0; size as usize],
            state: State::Ready,
            sends: 0,
            lookups: 0,
            target: pid,
            message: Message::ZERO,
            part: Vec::new(),
            shown: Message::ZERO,
            opened: 0,
            done: 0,
            moving: Moving { partner: pid, number: 0, moving: 0 },
            work: Work::default(),
            queue_first: NOBODY,
            queue_last: NOBODY,
        }
    }

    /// It is blocked in its remote Send of this number to this target.
    #[inline]
    pub fn awaits(&self, target: Pid, number: u64) -> bool {
        matches!(self.state, State::SendingThere) && self.sends == number && self.target == target
    }

    /// It is blocked in its remote Send of this number to a process of this station, where its message may have been handed on.
    #[inline]
    pub fn awaits_station(&self, host: u16, number: u64) -> bool {
        matches!(self.state, State::SendingThere) && self.sends == number && self.target.host() == host
    }

    /// The remote move in which it is blocked is this one.
    #[inline]
    pub fn is_move(&self, partner: Pid, number: u64, moving: u64) -> bool {
        self.moving.partner == partner && self.moving.number == number && self.moving.moving == moving
    }

    #[inline]
    fn is_receiving(&self) -> bool {
        matches!(self.state, State::Receiving | State::ReceivingSegment { .. })
    }
}

#[derive(Clone, Copy, PartialEq, Eq)]
pub enum Stage {
    Queued,
    Taken,
    Replied,
    Dropped,
}

/// A sender of another station, of whose last Send the station keeps something. The slot is free where nobody is the sender.
pub struct Alien {
    pub sender: Option<Pid>,
    pub number: u64,
    pub newest: u64,
    pub closed: Option<u64>,
    pub stage: Stage,
    /// Target, message and first part of the Send.
    pub target: Pid,
    pub message: Message,
    pub part: Vec<u8>,
    /// The place of the process at which it waits or that took it last, and the message that this one is shown.
    pub at: u8,
    pub shown: Message,
    /// The remote moves that were begun.
    pub moves: u64,
    pub reply: Message,
    pub reply_dest: u32,
    pub reply_bytes: Vec<u8>,
}

impl Alien {
    fn free() -> Alien {
        Alien {
            sender: None,
            number: 0,
            newest: 0,
            closed: None,
            stage: Stage::Dropped,
            target: Pid(0),
            message: Message::ZERO,
            part: Vec::new(),
            at: 0,
            shown: Message::ZERO,
            moves: 0,
            reply: Message::ZERO,
            reply_dest: 0,
            reply_bytes: Vec::new(),
        }
    }

    pub fn is_at(&self, process: usize) -> bool {
        self.sender.is_some() && usize::from(self.at) == process && matches!(self.stage, Stage::Queued | Stage::Taken)
    }
}

pub struct Station {
    pub host: u16,
    pub times: Times,
    pub now: u64,
    number: u64,
    events: u64,
    /// The place of its first process among all processes.
    pub first: usize,
    pub processes: Vec<Process>,
    pub aliens: Vec<Alien>,
    pub names: Names,
    /// Who is behind a sender in a queue.
    next: [u8; OWN_SENDERS + POOL],
    /// Of each event, where frames are found by the events that emitted them.
    outputs: Vec<Outputs>,
}

impl Station {
    pub fn new(config: &Config, host: u16) -> Station {
        let is_own = |(pid, _): &(Pid, u32)| pid.host() == host;
        let pool = config.station(host).map_or(0, |station| config.pools[station]);
        Station {
            host,
            times: config.times,
            now: 0,
            number: 0,
            events: 0,
            first: config.processes.iter().position(is_own).unwrap_or(0),
            processes: config.processes.iter().filter(|own| is_own(own)).map(|&(pid, size)| Process::new(pid, size)).collect(),
            aliens: (0..pool).map(|_| Alien::free()).collect(),
            names: Names::default(),
            next: [NOBODY; OWN_SENDERS + POOL],
            outputs: Vec::new(),
        }
    }

    /// The place of a process of this station.
    #[inline]
    pub fn own(&self, config: &Config, pid: Pid) -> Option<usize> {
        if pid.host() == self.host {
            config.process(pid).map(|place| place - self.first)
        } else {
            None
        }
    }

    /// The place of a live process of this station.
    #[inline]
    pub fn live(&self, config: &Config, pid: Pid) -> Option<usize> {
        self.own(config, pid).filter(|&place| self.processes[place].is_alive)
    }

    /// The place here of a process that is told by its place among all processes.
    #[inline]
    pub fn place(&self, process: usize) -> usize {
        process - self.first
    }

    /// The frame that this station emitted as this output of this event.
    #[inline]
    pub fn frame(&self, event: u64, output: u64) -> Option<usize> {
        let outputs = self.outputs.get(usize::try_from(event).ok()? - 1)?;
        if output <= u64::from(outputs.count) {
            Some(outputs.first as usize + output as usize - 1)
        } else {
            None
        }
    }

    /// A frame of another station is addressed to this one.
    #[inline]
    pub fn is_addressed<L: Listener>(&self, frame: usize, out: &Telling<L>) -> bool {
        let destination = out.outbox.destination(frame);
        destination == self.host || destination == EVERY_STATION
    }

    /// Its Lamport number.
    pub fn number(&self) -> u64 {
        self.number
    }

    /// Begins an event, to which this Lamport number came.
    #[inline]
    pub fn begin<L: Listener>(&mut self, came: u64, out: &mut Telling<L>) {
        self.events += 1;
        self.number = (self.number.max(came) + 1).min(i64::MAX as u64);
        out.header =
            Header { source: self.host, destination: 0, stamp: self.now, number: self.number, event: self.events, output: 0 };
        if L::FINDS_FRAMES {
            self.outputs.push(Outputs { first: out.outbox.count() as u32, count: 0 });
        }
        out.report.begin(self.host, self.events);
    }

    /// Ends an event.
    #[inline]
    pub fn end<L: Listener>(&mut self, out: &Telling<L>) {
        if L::FINDS_FRAMES && out.header.output > 0 {
            if let Some(outputs) = self.outputs.last_mut() {
                outputs.count = u32::from(out.header.output);
            }
        }
    }

    // Queues.

    #[inline]
    pub fn enqueue(&mut self, target: usize, sender: usize) {
        let process = &mut self.processes[target];
        self.next[sender] = NOBODY;
        if process.queue_first == NOBODY {
            process.queue_first = sender as u8;
        } else {
            self.next[usize::from(process.queue_last)] = sender as u8;
        }
        process.queue_last = sender as u8;
    }

    /// Drops all that is queued at a process.
    pub fn drop_queue(&mut self, target: usize) {
        self.processes[target].queue_first = NOBODY;
    }

    /// Takes a sender out of the middle of a queue.
    fn dequeue(&mut self, target: usize, sender: usize) {
        let process = &mut self.processes[target];
        let mut before = NOBODY;
        let mut at = process.queue_first;
        while usize::from(at) != sender {
            before = at;
            at = self.next[usize::from(at)];
        }
        if before == NOBODY {
            process.queue_first = self.next[sender];
        } else {
            self.next[usize::from(before)] = self.next[sender];
        }
        if process.queue_last == at {
            process.queue_last = before;
        }
    }

    /// A process that is blocked in a receive takes the first of its queue, where there is one.
    #[inline]
    pub fn take<L: Listener>(&mut self, taker: usize, out: &mut Telling<L>) {
        let first = self.processes[taker].queue_first;
        if first == NOBODY || !self.processes[taker].is_receiving() {
            return;
        }
        let first = usize::from(first);
        self.processes[taker].queue_first = self.next[first];
        if first < OWN_SENDERS {
            let Ok([process, sender]) = self.processes.get_disjoint_mut([taker, first]) else { return };
            sender.state = State::SendingHere { at: taker as u8, is_taken: true };
            taken(process, sender.pid, &sender.shown, &sender.part);
        } else {
            let alien = &mut self.aliens[first - OWN_SENDERS];
            alien.stage = Stage::Taken;
            let Some(sender) = alien.sender else { return };
            taken(&mut self.processes[taker], sender, &alien.shown, &alien.part);
        }
        out.report.step_of(b"take ", self.processes[taker].pid);
    }

    #[inline]
    pub fn collect<L: Listener>(&mut self, caller: usize, line: &[u8], out: &mut Telling<L>) {
        let process = &mut self.processes[caller];
        if let State::Done(answer) = &process.state {
            out.report.answer(answer);
            out.report.step_line(line);
            process.state = State::Ready;
        } else {
            out.report.answer_line(b"notyet\n");
        }
    }

    // Ticks.

    /// The clock goes on; this is before `begin`.
    pub fn advance(&mut self) {
        self.now += 1;
    }

    pub fn tick<L: Listener>(&mut self, out: &mut Telling<L>) {
        let now = self.now;
        let span = self.times.span();
        out.report.answer_tick(now);
        let mut due = [0; OWN_SENDERS];
        let mut count = 0;
        for (place, process) in self.processes.iter_mut().enumerate() {
            let is_work =
                matches!(process.state, State::SendingThere | State::MovingTo(_) | State::MovingFrom(_) | State::Asking { .. });
            if !is_work || now != process.work.since + self.times.interval {
                continue;
            }
            if process.work.rounds < self.times.tries {
                due[count] = place;
                count += 1;
                continue;
            }
            let refusal = match process.state {
                State::SendingThere => {
                    out.report.step_ending(b"fail ", process.pid, b" timedout\n");
                    "timedout"
                }
                State::Asking { .. } => {
                    out.report.step_of(b"lost ", process.pid);
                    "notfound"
                }
                _ => {
                    out.report.step_ending(b"end ", process.pid, b" timedout\n");
                    "timedout"
                }
            };
            process.state = State::Done(Answer::Refused(refusal));
        }
        for &place in &due[..count] {
            let process = &mut self.processes[place];
            out.round(process);
            process.work.since = now;
            process.work.rounds += 1;
            process.work.is_fresh = false;
        }
        for alien in &mut self.aliens {
            if alien.closed.is_some_and(|closed| closed.max(alien.newest) + span < now) {
                alien.sender = None;
                alien.closed = None;
            }
        }
    }

    // Aliens.

    #[inline]
    pub fn slot_of(&self, sender: Pid) -> Option<usize> {
        self.aliens.iter().position(|alien| alien.sender == Some(sender))
    }

    pub fn free_slot(&self) -> Option<usize> {
        self.aliens.iter().position(|alien| alien.sender.is_none())
    }

    /// A message arrives in this slot, and drops what was there.
    #[allow(clippy::too_many_arguments)]
    #[inline]
    pub fn arrive<L: Listener>(
        &mut self,
        slot: usize,
        target: usize,
        sender: Pid,
        number: u64,
        stamp: u64,
        message: &Message,
        part: &[u8],
        out: &mut Telling<L>,
    ) {
        out.report.step_numbers(b"arrive ", sender, &[number]);
        if self.aliens[slot].sender.is_some() && self.aliens[slot].stage == Stage::Queued {
            self.dequeue(usize::from(self.aliens[slot].at), OWN_SENDERS + slot);
        }
        let alien = &mut self.aliens[slot];
        alien.sender = Some(sender);
        alien.number = number;
        alien.newest = stamp;
        alien.closed = None;
        alien.stage = Stage::Queued;
        alien.target = self.processes[target].pid;
        alien.message = *message;
        alien.at = target as u8;
        alien.shown = *message;
        alien.part.clear();
        if !part.is_empty() {
            alien.part.extend_from_slice(part);
        }
        alien.moves = 0;
        self.enqueue(target, OWN_SENDERS + slot);
        self.take(target, out);
    }
}

impl Alien {
    /// What its sender is told, in the name of its target, whoever has the message.
    pub fn tell<L: Listener>(&self, out: &mut Telling<L>) {
        let Some(sender) = self.sender else { return };
        match self.stage {
            Stage::Queued | Stage::Taken => out.pending(self.target, sender, self.number),
            Stage::Replied => out.reply(self.target, sender, self.number, &self.reply, self.reply_dest, &self.reply_bytes),
            Stage::Dropped => out.negative(self.target, sender, self.number),
        }
    }
}

/// A process takes a message.
#[inline]
fn taken(process: &mut Process, sender: Pid, message: &Message, part: &[u8]) {
    let answer = if let State::ReceivingSegment { start, count } = process.state {
        let count = (count as usize).min(part.len());
        process.memory[start as usize..start as usize + count].copy_from_slice(&part[..count]);
        Answer::ReceivedSegment(sender, *message, count as u32)
    } else {
        Answer::Received(sender, *message)
    };
    process.state = State::Done(answer);
}
