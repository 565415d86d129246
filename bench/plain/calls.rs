//! What calls do at their station.

use crate::head::Config;
use crate::report::Listener;
use crate::station::{Moving, Stage, State, Station, Work, OWN_SENDERS};
use crate::telling::Telling;
use crate::values::{lies_in, Answer, Call, Message, Pid, Places, Registration, Scope, DATA_BYTES, MOVE_BYTES, SEGMENT_BYTES};

/// A message that a process has taken and not replied to: that of a process of the station, or that of an alien.
enum Held {
    Own(usize),
    Alien(usize),
}

impl Station {
    fn held(&self, config: &Config, holder: usize, sender: Pid) -> Option<Held> {
        if sender.host() == self.host {
            let place = self.own(config, sender)?;
            match self.processes[place].state {
                State::SendingHere { at, is_taken: true } if usize::from(at) == holder => Some(Held::Own(place)),
                _ => None,
            }
        } else {
            let slot = self.slot_of(sender)?;
            let alien = &self.aliens[slot];
            if alien.stage == Stage::Taken && usize::from(alien.at) == holder {
                Some(Held::Alien(slot))
            } else {
                None
            }
        }
    }

    fn message_of(&self, held: &Held) -> &Message {
        match held {
            Held::Own(place) => &self.processes[*place].message,
            Held::Alien(slot) => &self.aliens[*slot].message,
        }
    }

    /// A call of a process, of which the line is this. The bytes are those of a Store.
    #[inline]
    pub fn call<L: Listener>(
        &mut self,
        config: &Config,
        caller: usize,
        call: &Call,
        bytes: &[u8],
        line: &[u8],
        out: &mut Telling<L>,
    ) {
        let process = &mut self.processes[caller];
        if !process.is_alive {
            return out.called(b"dead\n", line);
        }
        if !matches!(process.state, State::Ready) {
            return out.called(b"busy\n", line);
        }
        match call {
            Call::Send { target, message } => self.send(config, caller, *target, message, line, out),
            Call::Receive => {
                process.state = State::Receiving;
                out.called(b"begun\n", line);
                self.take(caller, out);
            }
            Call::ReceiveSegment { start, count } => {
                if !lies_in(*start, *count, process.memory.len()) {
                    return out.called(b"badrange\n", line);
                }
                process.state = State::ReceivingSegment { start: *start, count: *count };
                out.called(b"begun\n", line);
                self.take(caller, out);
            }
            Call::Reply { message, to } => match self.held(config, caller, *to) {
                None => out.called(b"notawaiting\n", line),
                Some(held) => self.reply(caller, &held, message, &Places { dest: 0, src: 0, count: 0 }, line, out),
            },
            _ => self.other_call(config, caller, call, bytes, line, out),
        }
    }

    #[inline(never)]
    fn other_call<L: Listener>(
        &mut self,
        config: &Config,
        caller: usize,
        call: &Call,
        bytes: &[u8],
        line: &[u8],
        out: &mut Telling<L>,
    ) {
        let process = &mut self.processes[caller];
        match call {
            Call::ReplySegment { message, to, places } => {
                let granted = self.granted(config, caller, *to, SEGMENT_BYTES, places.count, |message| {
                    (message.grants_write(), message.grants(places.dest, places.count))
                });
                match granted {
                    Err(refusal) => out.called(refusal, line),
                    Ok(_) if !lies_in(places.src, places.count, self.processes[caller].memory.len()) => {
                        out.called(b"badrange\n", line)
                    }
                    Ok(held) => self.reply(caller, &held, message, places, line, out),
                }
            }
            Call::Forward { message, from, to } => self.forward(config, caller, message, *from, *to, line, out),
            Call::MoveTo { partner, places } => {
                let granted = self.granted(config, caller, *partner, MOVE_BYTES, places.count, |message| {
                    (message.grants_write(), message.grants(places.dest, places.count))
                });
                match granted {
                    Err(refusal) => out.called(refusal, line),
                    Ok(_) if !lies_in(places.src, places.count, self.processes[caller].memory.len()) => {
                        out.called(b"badrange\n", line)
                    }
                    Ok(Held::Own(sender)) => {
                        self.copy_here(caller, sender, places);
                        out.called(b"ok\n", line);
                    }
                    Ok(Held::Alien(_)) if places.count == 0 => out.called(b"ok\n", line),
                    Ok(Held::Alien(slot)) => self.begin_move(caller, slot, State::MovingTo(*places), line, out),
                }
            }
            Call::MoveFrom { partner, places } => {
                let granted = self.granted(config, caller, *partner, MOVE_BYTES, places.count, |message| {
                    (message.grants_read(), message.grants(places.src, places.count))
                });
                match granted {
                    Err(refusal) => out.called(refusal, line),
                    Ok(_) if !lies_in(places.dest, places.count, self.processes[caller].memory.len()) => {
                        out.called(b"badrange\n", line)
                    }
                    Ok(Held::Own(sender)) => {
                        self.copy_here(sender, caller, places);
                        out.called(b"ok\n", line);
                    }
                    Ok(Held::Alien(_)) if places.count == 0 => out.called(b"ok\n", line),
                    Ok(Held::Alien(slot)) => self.begin_move(caller, slot, State::MovingFrom(*places), line, out),
                }
            }
            Call::SetPid { logical, pid, scope } => {
                if self.live(config, *pid).is_none() {
                    out.called(b"noprocess\n", line);
                } else if self.names.is_full_for(*logical) {
                    out.called(b"namesfull\n", line);
                } else {
                    self.names.register(Registration { logical: *logical, pid: *pid, scope: *scope });
                    out.called(b"ok\n", line);
                }
            }
            Call::GetPid { logical, scope } => {
                let found = if *scope == Scope::Remote { None } else { self.names.found_here(*logical) };
                if let Some(pid) = found {
                    out.report.answer(&Answer::Found(pid));
                    out.report.step_line(line);
                } else if *scope == Scope::Local {
                    out.called(b"notfound\n", line);
                } else {
                    process.lookups += 1;
                    process.state = State::Asking { logical: *logical };
                    process.work = Work::begun(self.now);
                    out.called(b"begun\n", line);
                    out.round(process);
                }
            }
            Call::Load { start, count } => {
                if *count > DATA_BYTES {
                    out.called(b"toolong\n", line);
                } else if !lies_in(*start, *count, process.memory.len()) {
                    out.called(b"badrange\n", line);
                } else {
                    out.report.answer_loaded(&process.memory[*start as usize..(*start + *count) as usize]);
                    out.report.step_line(line);
                }
            }
            Call::Store { start } => {
                if !lies_in(*start, bytes.len() as u32, process.memory.len()) {
                    return out.called(b"badrange\n", line);
                }
                process.memory[*start as usize..*start as usize + bytes.len()].copy_from_slice(bytes);
                out.called(b"ok\n", line);
            }
            Call::Exit => self.exit(caller, line, out),
            Call::Send { .. } | Call::Receive | Call::ReceiveSegment { .. } | Call::Reply { .. } => {}
        }
    }

    /// What a load gives, where it is allowed.
    pub fn loaded(&self, caller: usize, start: u32, count: u32) -> Option<&[u8]> {
        let process = &self.processes[caller];
        if process.is_alive && count <= DATA_BYTES && lies_in(start, count, process.memory.len()) {
            Some(&process.memory[start as usize..(start + count) as usize])
        } else {
            None
        }
    }

    #[inline]
    fn send<L: Listener>(
        &mut self,
        config: &Config,
        caller: usize,
        target: Pid,
        message: &Message,
        line: &[u8],
        out: &mut Telling<L>,
    ) {
        let process = &self.processes[caller];
        if !message.fits(process.memory.len()) {
            return out.called(b"badsegment\n", line);
        }
        let is_here = target.host() == self.host;
        let place = self.live(config, target);
        if is_here && place.is_none() {
            return out.called(b"noprocess\n", line);
        }
        let process = &mut self.processes[caller];
        process.sends += 1;
        process.message = *message;
        process.shown = *message;
        process.part.clear();
        let (start, behind) = message.part();
        if start < behind {
            process.part.extend_from_slice(&process.memory[start..behind]);
        }
        out.called(b"begun\n", line);
        if let Some(place) = place {
            process.state = State::SendingHere { at: place as u8, is_taken: false };
            self.enqueue(place, caller);
            self.take(place, out);
        } else {
            process.target = target;
            process.opened = 0;
            process.done = 0;
            process.state = State::SendingThere;
            process.work = Work::begun(self.now);
            out.send(process);
        }
    }

    /// Replies to a message that is held, with the bytes at these places.
    #[inline]
    fn reply<L: Listener>(
        &mut self,
        caller: usize,
        held: &Held,
        message: &Message,
        places: &Places,
        line: &[u8],
        out: &mut Telling<L>,
    ) {
        out.called(b"ok\n", line);
        match *held {
            Held::Own(sender) => {
                if places.count > 0 {
                    self.copy_here(caller, sender, places);
                }
                let sender = &mut self.processes[sender];
                sender.state = State::Done(Answer::Replied(*message));
                out.report.step_of(b"finish ", sender.pid);
            }
            Held::Alien(slot) => {
                let process = &self.processes[caller];
                let alien = &mut self.aliens[slot];
                alien.stage = Stage::Replied;
                alien.closed = Some(self.now);
                alien.reply = *message;
                alien.reply_dest = places.dest;
                alien.reply_bytes.clear();
                if places.count > 0 {
                    let bytes = &process.memory[places.src as usize..(places.src + places.count) as usize];
                    alien.reply_bytes.extend_from_slice(bytes);
                }
                alien.tell(out);
            }
        }
    }

    /// Hands a message that is held on to another process of the station.
    #[allow(clippy::too_many_arguments)]
    fn forward<L: Listener>(
        &mut self,
        config: &Config,
        caller: usize,
        message: &Message,
        from: Pid,
        to: Pid,
        line: &[u8],
        out: &mut Telling<L>,
    ) {
        let Some(held) = self.held(config, caller, from) else { return out.called(b"notawaiting\n", line) };
        let Some(to) = self.live(config, to) else { return out.called(b"noprocess\n", line) };
        out.called(b"ok\n", line);
        let sender = match held {
            Held::Own(sender) => {
                self.processes[sender].state = State::SendingHere { at: to as u8, is_taken: false };
                self.processes[sender].shown = *message;
                sender
            }
            Held::Alien(slot) => {
                let alien = &mut self.aliens[slot];
                alien.stage = Stage::Queued;
                alien.at = to as u8;
                alien.shown = *message;
                OWN_SENDERS + slot
            }
        };
        self.enqueue(to, sender);
        self.take(to, out);
    }

    /// The message that the caller holds of this sender, where it grants what is asked for.
    fn granted(
        &self,
        config: &Config,
        caller: usize,
        sender: Pid,
        most: u32,
        count: u32,
        grants: impl Fn(&Message) -> (bool, bool),
    ) -> Result<Held, &'static [u8]> {
        if count > most {
            return Err(b"toolong\n");
        }
        let held = self.held(config, caller, sender).ok_or(b"notawaiting\n" as &[u8])?;
        match grants(self.message_of(&held)) {
            (false, _) => Err(b"noaccess\n"),
            (true, false) => Err(b"badrange\n"),
            (true, true) => Ok(held),
        }
    }

    /// Copies between the memories of two processes.
    fn copy_here(&mut self, from: usize, into: usize, places: &Places) {
        if let Ok([from, into]) = self.processes.get_disjoint_mut([from, into]) {
            let bytes = &from.memory[places.src as usize..(places.src + places.count) as usize];
            into.memory[places.dest as usize..(places.dest + places.count) as usize].copy_from_slice(bytes);
        }
    }

    fn begin_move<L: Listener>(&mut self, caller: usize, slot: usize, state: State, line: &[u8], out: &mut Telling<L>) {
        let process = &mut self.processes[caller];
        let alien = &mut self.aliens[slot];
        alien.moves += 1;
        if let Some(partner) = alien.sender {
            process.moving = Moving { partner, number: alien.number, moving: alien.moves };
        }
        process.state = state;
        process.work = Work::begun(self.now);
        out.called(b"begun\n", line);
        out.round(process);
    }

    fn exit<L: Listener>(&mut self, caller: usize, line: &[u8], out: &mut Telling<L>) {
        out.called(b"ok\n", line);
        let pid = self.processes[caller].pid;
        self.processes[caller].is_alive = false;
        self.drop_queue(caller);
        for process in &mut self.processes {
            if matches!(process.state, State::SendingHere { at, .. } if usize::from(at) == caller) {
                process.state = State::Done(Answer::Refused("noprocess"));
            }
        }
        self.names.forget(pid);
        for alien in &mut self.aliens {
            if alien.is_at(caller) {
                alien.stage = Stage::Dropped;
                alien.closed = Some(self.now);
                alien.tell(out);
            }
        }
    }
}
