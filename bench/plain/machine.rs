//! The kernel on one machine, and its steps. A step that is not allowed changes nothing.

use std::collections::HashMap;

use crate::exchange::{Exchange, Move, Stage, NONE};
use crate::head::Config;
use crate::values::{
    lies_in, Answer, Call, Message, Names, Pid, Places, Registration, Scope, DATA_BYTES, MOVE_BYTES, SEGMENT_BYTES,
};

const NOTED_BYTES: u64 = 268_435_456;
const STATIONS: usize = 16;

/// Why a step is not made.
pub enum Refusal {
    NotAllowed,
    Limit,
}

/// A step is made, and its process may see something.
pub type Applied = Result<Option<Answer>, Refusal>;

const UNSEEN: Applied = Ok(None);
const NOT_ALLOWED: Applied = Err(Refusal::NotAllowed);

fn refused(why: &'static str) -> Applied {
    Ok(Some(Answer::Refused(why)))
}

enum State {
    Ready,
    Receiving,
    ReceivingSegment { start: u32, count: u32 },
    Sending,
    Moving,
    Asking,
    Done(Answer),
}

struct Process {
    pid: Pid,
    /// The place of its station.
    station: usize,
    is_alive: bool,
    memory: Vec<u8>,
    state: State,
    sends: u64,
    /// The exchange of its last Send.
    last: u32,
    /// The exchange of the remote move in which it is blocked, and which move of that it is.
    moved: u32,
    moving: u64,
    /// Of each lookup the logical id; and who was told for the last one, a bit for each process.
    lookups: Vec<u32>,
    told: [u64; 8],
    /// The exchanges whose messages wait.
    queue_first: u32,
    queue_last: u32,
}

pub struct Machine<'a> {
    config: &'a Config,
    processes: Vec<Process>,
    exchanges: Vec<Exchange>,
    free: Vec<u32>,
    /// Exchanges that are kept, but not the last of their senders.
    others: HashMap<(u32, u64), u32>,
    /// For each sender and station: the exchange that is queued or taken there, and the newest that is posted to it.
    arrived: Vec<u32>,
    posted: Vec<u32>,
    names: Vec<Names>,
    noted: u64,
}

impl<'a> Machine<'a> {
    pub fn new(config: &'a Config) -> Machine<'a> {
        let process = |&(pid, size): &(Pid, u32)| Process {
            pid,
            station: config.station(pid.host()).unwrap_or(0),
            is_alive: true,
            memory: vec![0; size as usize],
            state: State::Ready,
            sends: 0,
            last: NONE,
            moved: NONE,
            moving: 0,
            lookups: Vec::new(),
            told: [0; 8],
            queue_first: NONE,
            queue_last: NONE,
        };
        Machine {
            config,
            processes: config.processes.iter().map(process).collect(),
            exchanges: Vec::new(),
            free: Vec::new(),
            others: HashMap::new(),
            arrived: vec![NONE; config.processes.len() * STATIONS],
            posted: vec![NONE; config.processes.len() * STATIONS],
            names: config.hosts.iter().map(|_| Names::default()).collect(),
            noted: 0,
        }
    }

    // Words for the state.

    /// The place of a live process of this station.
    fn live_there(&self, station: usize, pid: Pid) -> Option<usize> {
        self.config.process(pid).filter(|&place| self.processes[place].station == station && self.processes[place].is_alive)
    }

    /// The exchange of this name, where it is kept.
    #[inline]
    fn exchange(&self, sender: usize, number: u64) -> Option<u32> {
        let process = &self.processes[sender];
        if process.sends == number && number > 0 {
            Some(process.last)
        } else {
            self.others.get(&(sender as u32, number)).copied()
        }
    }

    /// The sender waits on its exchange of this number.
    #[inline]
    fn waits(&self, sender: usize, number: u64) -> bool {
        let process = &self.processes[sender];
        matches!(process.state, State::Sending) && process.sends == number
    }

    fn is_last(&self, exchange: u32) -> bool {
        let kept = &self.exchanges[exchange as usize];
        self.processes[kept.sender as usize].last == exchange
    }

    // Exchanges.

    /// The place for the next exchange of a sender: that of its last one, where nothing asks for that any more.
    fn place_for(&mut self, sender: usize) -> u32 {
        let last = self.processes[sender].last;
        if last != NONE {
            let kept = &self.exchanges[last as usize];
            if matches!(kept.stage, Stage::Replied | Stage::Dropped) && kept.mover == NONE {
                return last;
            }
            if kept.stage == Stage::Posted && kept.at == NONE {
                return last;
            }
            self.others.insert((sender as u32, kept.number), last);
        }
        if let Some(place) = self.free.pop() {
            return place;
        }
        self.exchanges.push(Exchange::none_of(sender as u32));
        self.exchanges.len() as u32 - 1
    }

    /// Gives an exchange up, where nothing asks for it any more.
    fn give_up(&mut self, exchange: u32) {
        if self.is_last(exchange) {
            return;
        }
        let kept = &mut self.exchanges[exchange as usize];
        if matches!(kept.stage, Stage::Replied | Stage::Dropped) && kept.mover == NONE {
            kept.moves.clear();
            self.others.remove(&(kept.sender, kept.number));
            self.free.push(exchange);
        }
    }

    #[inline]
    fn enqueue(&mut self, exchange: u32) {
        let kept = &mut self.exchanges[exchange as usize];
        kept.next = NONE;
        kept.stage = Stage::Queued;
        let target = &mut self.processes[kept.at as usize];
        self.arrived[kept.sender as usize * STATIONS + target.station] = exchange;
        let before = target.queue_last;
        target.queue_last = exchange;
        if target.queue_first == NONE {
            target.queue_first = exchange;
        } else {
            self.exchanges[before as usize].next = exchange;
        }
    }

    fn dequeue(&mut self, exchange: u32) {
        let next = self.exchanges[exchange as usize].next;
        let target = self.exchanges[exchange as usize].at as usize;
        let mut before = NONE;
        let mut at = self.processes[target].queue_first;
        while at != exchange {
            before = at;
            at = self.exchanges[at as usize].next;
        }
        let target = &mut self.processes[target];
        if target.queue_last == exchange {
            target.queue_last = before;
        }
        if before == NONE {
            target.queue_first = next;
        } else {
            self.exchanges[before as usize].next = next;
        }
    }

    /// The exchange of this sender that the process holds.
    #[inline]
    fn held(&self, holder: usize, sender: Pid) -> Option<u32> {
        let sender = self.config.process(sender)?;
        let exchange = self.arrived[sender * STATIONS + self.processes[holder].station];
        let kept = self.exchanges.get(exchange as usize)?;
        if kept.stage == Stage::Taken && kept.at as usize == holder {
            Some(exchange)
        } else {
            None
        }
    }

    // Calls.

    #[inline]
    pub fn call(&mut self, caller: usize, call: &Call, bytes: &[u8]) -> Applied {
        let process = &mut self.processes[caller];
        if !process.is_alive {
            return refused("dead");
        }
        if !matches!(process.state, State::Ready) {
            return refused("busy");
        }
        match call {
            Call::Send { target, message } => self.send(caller, *target, message),
            Call::Receive => {
                process.state = State::Receiving;
                UNSEEN
            }
            Call::ReceiveSegment { start, count } => {
                if !lies_in(*start, *count, process.memory.len()) {
                    return refused("badrange");
                }
                process.state = State::ReceivingSegment { start: *start, count: *count };
                UNSEEN
            }
            Call::Reply { message, to } => match self.held(caller, *to) {
                None => refused("notawaiting"),
                Some(exchange) => self.reply(caller, exchange, message, &Places { dest: 0, src: 0, count: 0 }),
            },
            _ => self.other_call(caller, call, bytes),
        }
    }

    #[inline(never)]
    fn other_call(&mut self, caller: usize, call: &Call, bytes: &[u8]) -> Applied {
        let process = &mut self.processes[caller];
        match call {
            Call::ReplySegment { message, to, places } => match self.granted(caller, *to, SEGMENT_BYTES, places, false) {
                Err(why) => refused(why),
                Ok(exchange) => self.reply(caller, exchange, message, places),
            },
            Call::Forward { message, from, to } => self.forward(caller, message, *from, *to),
            Call::MoveTo { partner, places } => match self.granted(caller, *partner, MOVE_BYTES, places, false) {
                Err(why) => refused(why),
                Ok(exchange) => self.begin_move(caller, exchange, places, false),
            },
            Call::MoveFrom { partner, places } => match self.granted(caller, *partner, MOVE_BYTES, places, true) {
                Err(why) => refused(why),
                Ok(exchange) => self.begin_move(caller, exchange, places, true),
            },
            Call::SetPid { logical, pid, scope } => {
                let station = process.station;
                let is_there = self.live_there(station, *pid).is_some();
                let names = &mut self.names[station];
                if !is_there {
                    refused("noprocess")
                } else if names.is_full_for(*logical) {
                    refused("namesfull")
                } else {
                    names.register(Registration { logical: *logical, pid: *pid, scope: *scope });
                    Ok(Some(Answer::Ok))
                }
            }
            Call::GetPid { logical, scope } => {
                let names = &self.names[process.station];
                let found = if *scope == Scope::Remote { None } else { names.found_here(*logical) };
                if let Some(pid) = found {
                    Ok(Some(Answer::Found(pid)))
                } else if *scope == Scope::Local {
                    refused("notfound")
                } else {
                    process.lookups.push(*logical);
                    process.told = [0; 8];
                    process.state = State::Asking;
                    UNSEEN
                }
            }
            Call::Load { start, count } => {
                if *count > DATA_BYTES {
                    refused("toolong")
                } else if !lies_in(*start, *count, process.memory.len()) {
                    refused("badrange")
                } else {
                    // the bytes stand in the memory, and nobody looks at them here
                    Ok(Some(Answer::Ok))
                }
            }
            Call::Store { start } => {
                if !lies_in(*start, bytes.len() as u32, process.memory.len()) {
                    return refused("badrange");
                }
                process.memory[*start as usize..*start as usize + bytes.len()].copy_from_slice(bytes);
                Ok(Some(Answer::Ok))
            }
            Call::Exit => self.exit(caller),
            Call::Send { .. } | Call::Receive | Call::ReceiveSegment { .. } | Call::Reply { .. } => NOT_ALLOWED,
        }
    }

    #[inline]
    fn send(&mut self, caller: usize, target: Pid, message: &Message) -> Applied {
        let process = &self.processes[caller];
        if !message.fits(process.memory.len()) {
            return refused("badsegment");
        }
        let is_here = target.host() == process.pid.host();
        let target_place = self.config.process(target);
        if is_here && !target_place.is_some_and(|place| self.processes[place].is_alive) {
            return refused("noprocess");
        }
        let place = self.place_for(caller);
        let process = &mut self.processes[caller];
        let kept = &mut self.exchanges[place as usize];
        process.sends += 1;
        process.last = place;
        process.state = State::Sending;
        kept.sender = caller as u32;
        kept.number = process.sends;
        kept.target = target;
        kept.message = *message;
        kept.at = target_place.map_or(NONE, |place| place as u32);
        kept.shown = *message;
        kept.part.clear();
        let (start, behind) = message.part();
        if start < behind {
            kept.part.extend_from_slice(&process.memory[start..behind]);
        }
        kept.opened = 0;
        kept.done = 0;
        kept.begun = 0;
        if !kept.moves.is_empty() {
            kept.moves.clear();
        }
        kept.older = NONE;
        kept.newer = NONE;
        if is_here {
            self.enqueue(place);
        } else {
            kept.stage = Stage::Posted;
            if let Some(target) = target_place {
                let newest = &mut self.posted[caller * STATIONS + self.processes[target].station];
                kept.older = *newest;
                let older = *newest;
                *newest = place;
                if older != NONE {
                    self.exchanges[older as usize].newer = place;
                }
            }
        }
        UNSEEN
    }

    #[inline]
    fn reply(&mut self, caller: usize, exchange: u32, message: &Message, places: &Places) -> Applied {
        let process = &self.processes[caller];
        let kept = &mut self.exchanges[exchange as usize];
        self.arrived[kept.sender as usize * STATIONS + process.station] = NONE;
        kept.stage = Stage::Replied;
        kept.reply = *message;
        kept.reply_dest = places.dest;
        kept.reply_bytes.clear();
        if places.count > 0 {
            kept.reply_bytes.extend_from_slice(&process.memory[places.src as usize..(places.src + places.count) as usize]);
        }
        self.give_up(exchange);
        Ok(Some(Answer::Ok))
    }

    /// Hands a message that is held on to another process of the station.
    fn forward(&mut self, caller: usize, message: &Message, from: Pid, to: Pid) -> Applied {
        let Some(exchange) = self.held(caller, from) else { return refused("notawaiting") };
        let Some(to) = self.live_there(self.processes[caller].station, to) else { return refused("noprocess") };
        let kept = &mut self.exchanges[exchange as usize];
        kept.at = to as u32;
        kept.shown = *message;
        self.enqueue(exchange);
        Ok(Some(Answer::Ok))
    }

    /// The exchange that the caller holds of this sender, where it grants what is asked for.
    fn granted(&self, caller: usize, sender: Pid, most: u32, places: &Places, is_from: bool) -> Result<u32, &'static str> {
        if places.count > most {
            return Err("toolong");
        }
        let exchange = self.held(caller, sender).ok_or("notawaiting")?;
        let message = &self.exchanges[exchange as usize].message;
        let (granted, own) = if is_from { (places.src, places.dest) } else { (places.dest, places.src) };
        if !(if is_from { message.grants_read() } else { message.grants_write() }) {
            return Err("noaccess");
        }
        if !message.grants(granted, places.count) || !lies_in(own, places.count, self.processes[caller].memory.len()) {
            return Err("badrange");
        }
        Ok(exchange)
    }

    fn begin_move(&mut self, caller: usize, exchange: u32, places: &Places, is_from: bool) -> Applied {
        let sender = self.exchanges[exchange as usize].sender as usize;
        if self.processes[sender].station == self.processes[caller].station {
            let (from, into) = if is_from { (sender, caller) } else { (caller, sender) };
            let src = places.src as usize..(places.src + places.count) as usize;
            self.copy_between(from, src, into, places.dest as usize);
            return Ok(Some(Answer::Ok));
        }
        if places.count == 0 {
            return Ok(Some(Answer::Ok));
        }
        if !is_from {
            self.note(places.count)?;
        }
        let kept = &mut self.exchanges[exchange as usize];
        kept.begun += 1;
        kept.moves.push_back(Move { is_from, places: *places, noted: None });
        kept.mover = caller as u32;
        let process = &mut self.processes[caller];
        process.state = State::Moving;
        process.moved = exchange;
        process.moving = kept.begun;
        UNSEEN
    }

    /// So many bytes more are noted, where they may be.
    fn note(&mut self, count: u32) -> Result<(), Refusal> {
        let noted = self.noted + u64::from(count);
        if noted > NOTED_BYTES {
            return Err(Refusal::Limit);
        }
        self.noted = noted;
        Ok(())
    }

    #[inline]
    fn copy_between(&mut self, from: usize, src: std::ops::Range<usize>, into: usize, dest: usize) {
        if let Ok([from, into]) = self.processes.get_disjoint_mut([from, into]) {
            into.memory[dest..dest + src.len()].copy_from_slice(&from.memory[src]);
        }
    }

    fn exit(&mut self, caller: usize) -> Applied {
        let station = self.processes[caller].station;
        for sender in 0..self.processes.len() {
            let exchange = self.arrived[sender * STATIONS + station];
            if exchange == NONE || self.exchanges[exchange as usize].at as usize != caller {
                continue;
            }
            self.arrived[sender * STATIONS + station] = NONE;
            self.exchanges[exchange as usize].stage = Stage::Dropped;
            let process = &mut self.processes[sender];
            if process.station == station {
                process.state = State::Done(Answer::Refused("noprocess"));
            }
            self.give_up(exchange);
        }
        let process = &mut self.processes[caller];
        process.is_alive = false;
        process.queue_first = NONE;
        process.queue_last = NONE;
        self.names[station].forget(process.pid);
        Ok(Some(Answer::Ok))
    }

    // The other steps.

    #[inline]
    pub fn arrive(&mut self, sender: Pid, number: u64) -> Applied {
        let Some(sender) = self.config.process(sender) else { return NOT_ALLOWED };
        let Some(exchange) = self.exchange(sender, number) else { return NOT_ALLOWED };
        let kept = &self.exchanges[exchange as usize];
        let Some(target) = self.processes.get(kept.at as usize) else { return NOT_ALLOWED };
        if kept.stage != Stage::Posted || !target.is_alive {
            return NOT_ALLOWED;
        }
        let pair = sender * STATIONS + target.station;
        // what was sent there before is dropped
        let (mut older, newer) = (kept.older, kept.newer);
        if newer == NONE {
            self.posted[pair] = NONE;
        } else {
            self.exchanges[newer as usize].older = NONE;
        }
        while older != NONE {
            let before = self.exchanges[older as usize].older;
            self.exchanges[older as usize].stage = Stage::Dropped;
            self.give_up(older);
            older = before;
        }
        let earlier = self.arrived[pair];
        if earlier != NONE {
            if self.exchanges[earlier as usize].stage == Stage::Queued {
                self.dequeue(earlier);
            }
            self.exchanges[earlier as usize].stage = Stage::Dropped;
            self.give_up(earlier);
        }
        self.enqueue(exchange);
        UNSEEN
    }

    #[inline]
    pub fn take(&mut self, taker: Pid) -> Applied {
        let Some(taker) = self.config.process(taker) else { return NOT_ALLOWED };
        let process = &mut self.processes[taker];
        let Some(kept) = self.exchanges.get_mut(process.queue_first as usize) else { return NOT_ALLOWED };
        let sender = self.config.processes[kept.sender as usize].0;
        let answer = match process.state {
            State::Receiving => Answer::Received(sender, kept.shown),
            State::ReceivingSegment { start, count } => {
                let count = (count as usize).min(kept.part.len());
                process.memory[start as usize..start as usize + count].copy_from_slice(&kept.part[..count]);
                Answer::ReceivedSegment(sender, kept.shown, count as u32)
            }
            _ => return NOT_ALLOWED,
        };
        process.state = State::Done(answer);
        process.queue_first = kept.next;
        kept.stage = Stage::Taken;
        UNSEEN
    }

    #[inline]
    pub fn finish(&mut self, sender: Pid) -> Applied {
        let Some(sender) = self.config.process(sender) else { return NOT_ALLOWED };
        let process = &mut self.processes[sender];
        if !matches!(process.state, State::Sending) {
            return NOT_ALLOWED;
        }
        let kept = &self.exchanges[process.last as usize];
        if kept.stage != Stage::Replied {
            return NOT_ALLOWED;
        }
        if !kept.reply_bytes.is_empty() {
            let dest = kept.reply_dest as usize;
            process.memory[dest..dest + kept.reply_bytes.len()].copy_from_slice(&kept.reply_bytes);
        }
        process.state = State::Done(Answer::Replied(kept.reply));
        UNSEEN
    }

    /// A Send fails: it timed out, or else the process that has its message is not alive.
    pub fn fail(&mut self, sender: Pid, is_timed_out: bool) -> Applied {
        let Some(sender) = self.config.process(sender) else { return NOT_ALLOWED };
        let process = &self.processes[sender];
        if !matches!(process.state, State::Sending) {
            return NOT_ALLOWED;
        }
        let kept = &mut self.exchanges[process.last as usize];
        let is_holder_alive = self.processes.get(kept.at as usize).is_some_and(|holder| holder.is_alive);
        if process.pid.host() == kept.target.host() || !is_timed_out && is_holder_alive {
            return NOT_ALLOWED;
        }
        // the bytes of an open move from this sender are noted before its memory can change
        let (opened, done, has_mover) = (kept.opened, kept.done, kept.mover != NONE);
        if let Some(open) = kept.move_of_mut(opened) {
            if has_mover && open.is_from && done < open.places.count {
                open.noted = Some(bytes_of(&process.memory, &open.places));
            }
        }
        let why = if is_timed_out { "timedout" } else { "noprocess" };
        self.processes[sender].state = State::Done(Answer::Refused(why));
        UNSEEN
    }

    pub fn open(&mut self, sender: Pid, number: u64, moving: u64) -> Applied {
        let Some(sender) = self.config.process(sender) else { return NOT_ALLOWED };
        if !self.waits(sender, number) {
            return NOT_ALLOWED;
        }
        let exchange = self.processes[sender].last as usize;
        let kept = &self.exchanges[exchange];
        if moving <= kept.opened {
            return NOT_ALLOWED;
        }
        let Some(opened) = kept.move_of(moving) else { return NOT_ALLOWED };
        if opened.is_from {
            self.note(opened.places.count)?;
        }
        let kept = &mut self.exchanges[exchange];
        kept.opened = moving;
        kept.done = 0;
        while kept.moves.len() as u64 > kept.begun - moving + 1 {
            kept.moves.pop_front();
        }
        UNSEEN
    }

    #[inline]
    pub fn copy(&mut self, sender: Pid, number: u64, moving: u64, offset: u32, count: u32) -> Applied {
        let Some(sender) = self.config.process(sender) else { return NOT_ALLOWED };
        let Some(exchange) = self.exchange(sender, number) else { return NOT_ALLOWED };
        let kept = &mut self.exchanges[exchange as usize];
        if kept.opened != moving || kept.done != offset || count == 0 {
            return NOT_ALLOWED;
        }
        let Some(open) = kept.move_of(moving) else { return NOT_ALLOWED };
        let Places { dest, src, count: total } = open.places;
        if u64::from(offset) + u64::from(count) > u64::from(total) {
            return NOT_ALLOWED;
        }
        let mover = kept.mover as usize;
        let is_mover_in = kept.mover != NONE && self.processes[mover].moving == moving;
        let (from, into) = if open.is_from { (sender, mover) } else { (mover, sender) };
        let is_allowed = if open.is_from {
            is_mover_in
        } else {
            matches!(self.processes[sender].state, State::Sending) && self.processes[sender].sends == number
        };
        if !is_allowed {
            return NOT_ALLOWED;
        }
        let dest = (dest + offset) as usize;
        if let Some(noted) = &open.noted {
            let bytes = &noted[offset as usize..(offset + count) as usize];
            self.processes[into].memory[dest..dest + bytes.len()].copy_from_slice(bytes);
            kept.done += count;
        } else {
            kept.done += count;
            let start = (src + offset) as usize;
            self.copy_between(from, start..start + count as usize, into, dest);
        }
        UNSEEN
    }

    pub fn end_ok(&mut self, mover: Pid) -> Applied {
        let Some(mover) = self.mover(mover) else { return NOT_ALLOWED };
        let process = &self.processes[mover];
        let kept = &self.exchanges[process.moved as usize];
        let is_done =
            kept.opened == process.moving && kept.move_of(process.moving).is_some_and(|open| open.places.count == kept.done);
        if is_done {
            self.ended(mover, Answer::Ok)
        } else {
            NOT_ALLOWED
        }
    }

    pub fn end_gone(&mut self, mover: Pid) -> Applied {
        let Some(mover) = self.mover(mover) else { return NOT_ALLOWED };
        let kept = &self.exchanges[self.processes[mover].moved as usize];
        if self.waits(kept.sender as usize, kept.number) {
            NOT_ALLOWED
        } else {
            self.ended(mover, Answer::Refused("gone"))
        }
    }

    pub fn end_timed_out(&mut self, mover: Pid) -> Applied {
        let Some(mover) = self.mover(mover) else { return NOT_ALLOWED };
        // a move to a sender that waits may go on, so its bytes are noted before the mover's memory can change
        let process = &self.processes[mover];
        let kept = &mut self.exchanges[process.moved as usize];
        let (opened, done) = (kept.opened, kept.done);
        if let Some(running) = kept.move_of_mut(process.moving) {
            if !running.is_from && (opened < process.moving || done < running.places.count) {
                running.noted = Some(bytes_of(&process.memory, &running.places));
            }
        }
        self.ended(mover, Answer::Refused("timedout"))
    }

    /// A process that is blocked in a remote move.
    fn mover(&self, mover: Pid) -> Option<usize> {
        self.config.process(mover).filter(|&place| matches!(self.processes[place].state, State::Moving))
    }

    fn ended(&mut self, mover: usize, answer: Answer) -> Applied {
        let process = &mut self.processes[mover];
        process.state = State::Done(answer);
        let exchange = process.moved;
        process.moved = NONE;
        self.exchanges[exchange as usize].mover = NONE;
        self.give_up(exchange);
        UNSEEN
    }

    pub fn hear(&mut self, asker: Pid, lookup: u64, pid: Pid) -> Applied {
        let (Some(asker), Some(place)) = (self.config.process(asker), self.config.process(pid)) else { return NOT_ALLOWED };
        let station = self.processes[place].station;
        let process = &mut self.processes[asker];
        let Some(&logical) = process.lookups.get(lookup as usize - 1) else { return NOT_ALLOWED };
        if process.station == station || self.names[station].found_there(logical) != Some(pid) {
            return NOT_ALLOWED;
        }
        if process.lookups.len() as u64 == lookup {
            process.told[place / 64] |= 1 << (place % 64);
        }
        UNSEEN
    }

    pub fn found(&mut self, asker: Pid, pid: Pid) -> Applied {
        let (Some(asker), Some(place)) = (self.config.process(asker), self.config.process(pid)) else { return NOT_ALLOWED };
        let process = &mut self.processes[asker];
        if !matches!(process.state, State::Asking) || process.told[place / 64] >> (place % 64) & 1 == 0 {
            return NOT_ALLOWED;
        }
        process.state = State::Done(Answer::Found(pid));
        UNSEEN
    }

    pub fn lost(&mut self, asker: Pid) -> Applied {
        let Some(asker) = self.config.process(asker) else { return NOT_ALLOWED };
        let process = &mut self.processes[asker];
        if !matches!(process.state, State::Asking) {
            return NOT_ALLOWED;
        }
        process.state = State::Done(Answer::Refused("notfound"));
        UNSEEN
    }

    #[inline]
    pub fn collect(&mut self, caller: usize) -> Applied {
        let process = &mut self.processes[caller];
        let State::Done(answer) = process.state else { return NOT_ALLOWED };
        process.state = State::Ready;
        Ok(Some(answer))
    }
}

/// The bytes of a move in the memory from which they are moved.
fn bytes_of(memory: &[u8], places: &Places) -> Vec<u8> {
    memory[places.src as usize..(places.src + places.count) as usize].to_vec()
}
