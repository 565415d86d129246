//! What the packets that come amount to at a station.

use crate::head::Config;
use crate::report::Listener;
use crate::station::{State, Station, Work};
use crate::telling::Telling;
use crate::values::{Answer, Message, Pid, Places, DATA_BYTES};
use crate::wire::{decode, open, Packet, EVERY_STATION, HEADER_BYTES};

impl Station {
    /// A frame comes, which is this one of the outbox.
    #[inline]
    pub fn deliver<L: Listener>(&mut self, config: &Config, frame: usize, out: &mut Telling<L>) {
        let range = out.outbox.range(frame);
        let end = range.end;
        let bytes = &out.outbox.bytes[range];
        let Some(header) = open(bytes) else {
            self.begin(0, out);
            out.report.answer_line(b"bad\n");
            return self.end(out);
        };
        let is_for = (header.destination == self.host || header.destination == EVERY_STATION) && header.source != self.host;
        let is_young = self.now <= header.stamp + self.times.life;
        let packet = if is_for && is_young { decode(&bytes[HEADER_BYTES..], end, &header) } else { None };
        self.begin(header.number, out);
        if let Some(packet) = packet {
            out.report.answer_line(b"taken\n");
            self.packet(config, packet, header.stamp, out);
        } else {
            out.report.answer_line(if is_for && !is_young { b"old\n" } else { b"bad\n" });
        }
        self.end(out);
    }

    #[inline]
    fn packet<L: Listener>(&mut self, config: &Config, packet: Packet, stamp: u64, out: &mut Telling<L>) {
        match packet {
            Packet::Send { from, to, number, message, part } => self.sent(config, from, to, number, &message, part, stamp, out),
            Packet::Reply { from, to, number, message, dest, bytes } => {
                let Some(place) = self.own(config, to) else { return };
                let process = &mut self.processes[place];
                let count = bytes.len() as u32;
                let may_write = count == 0 || process.message.grants_write() && process.message.grants(dest, count);
                if process.awaits(from, number) && may_write {
                    if count > 0 {
                        process.memory[dest as usize..(dest + count) as usize].copy_from_slice(&out.outbox.bytes[bytes]);
                    }
                    process.state = State::Done(Answer::Replied(message));
                    out.report.step_of(b"finish ", to);
                }
            }
            Packet::Pending { from, to, number } => {
                let Some(place) = self.own(config, to) else { return };
                if self.processes[place].awaits(from, number) {
                    self.processes[place].work.is_answered(self.now);
                }
            }
            Packet::Negative { from, to, number } => {
                let Some(place) = self.own(config, to) else { return };
                let process = &mut self.processes[place];
                if process.awaits(from, number) {
                    process.state = State::Done(Answer::Refused("noprocess"));
                    out.report.step_ending(b"fail ", to, b" noprocess\n");
                }
            }
            Packet::MoveData { from, to, number, moving, dest, total, offset, bytes } => {
                let Some(place) = self.own(config, to) else { return };
                let process = &mut self.processes[place];
                if !process.awaits_station(from.host(), number) {
                    if number <= process.sends {
                        out.move_negative(to, from, number, moving);
                    }
                    return;
                }
                if !process.message.grants_write() || !process.message.grants(dest, total) || moving < process.opened {
                    return;
                }
                if process.opened < moving {
                    process.opened = moving;
                    process.done = 0;
                    out.report.step_numbers(b"open ", to, &[number, moving]);
                }
                let count = bytes.len() as u32;
                if offset == process.done {
                    let start = (dest + offset) as usize;
                    process.memory[start..start + bytes.len()].copy_from_slice(&out.outbox.bytes[bytes]);
                    process.done += count;
                    out.report.step_numbers(b"copy ", to, &[number, moving, u64::from(offset), u64::from(count)]);
                }
                if offset + count == total {
                    out.move_ack(to, from, number, moving, process.done);
                }
            }
            Packet::MoveRequest { from, to, number, moving, src, total, offset } => {
                let Some(place) = self.own(config, to) else { return };
                let process = &mut self.processes[place];
                if !process.awaits_station(from.host(), number) {
                    if number <= process.sends {
                        out.move_negative(to, from, number, moving);
                    }
                    return;
                }
                if !process.message.grants_read() || !process.message.grants(src, total) || moving < process.opened {
                    return;
                }
                if process.opened < moving {
                    process.opened = moving;
                    process.done = 0;
                    out.report.step_numbers(b"open ", to, &[number, moving]);
                }
                out.move_bytes(process, from, number, moving, src, total, offset);
            }
            Packet::MoveAck { from, to, number, moving, received } => {
                self.acknowledged(config, from, to, number, moving, received, out)
            }
            Packet::MoveBytes { from, to, number, moving, total, offset, bytes } => {
                let Some(place) = self.own(config, to) else { return };
                let now = self.now;
                let process = &mut self.processes[place];
                let State::MovingFrom(Places { dest, count, .. }) = process.state else { return };
                if !process.is_move(from, number, moving) || count != total {
                    return;
                }
                let length = bytes.len() as u32;
                let is_last = offset + length == total;
                if offset == process.work.received {
                    let start = (dest + offset) as usize;
                    process.memory[start..start + bytes.len()].copy_from_slice(&out.outbox.bytes[bytes]);
                    process.work.received += length;
                    process.work.is_fresh = true;
                    out.report.step_numbers(b"copy ", from, &[number, moving, u64::from(offset), u64::from(length)]);
                    if is_last {
                        process.state = State::Done(Answer::Ok);
                        out.report.step_ending(b"end ", to, b" ok\n");
                    } else {
                        process.work.is_answered(now);
                    }
                } else if process.work.received < offset && is_last {
                    if process.work.is_fresh {
                        out.round(process);
                        process.work = Work { received: process.work.received, ..Work::begun(now) };
                    } else {
                        process.work.is_answered(now);
                    }
                }
            }
            Packet::MoveNegative { from, to, number, moving } => {
                let Some(place) = self.own(config, to) else { return };
                let process = &mut self.processes[place];
                if matches!(process.state, State::MovingTo(_) | State::MovingFrom(_)) && process.is_move(from, number, moving) {
                    process.state = State::Done(Answer::Refused("gone"));
                    out.report.step_ending(b"end ", to, b" gone\n");
                }
            }
            Packet::AskPid { asker, lookup, logical } => {
                if let Some(found) = self.names.found_there(logical) {
                    out.report.step_hear(asker, lookup, found);
                    out.tell_pid(found, asker, lookup);
                }
            }
            Packet::TellPid { found, asker, lookup } => {
                let Some(place) = self.own(config, asker) else { return };
                let process = &mut self.processes[place];
                if matches!(process.state, State::Asking { .. }) && process.lookups == lookup {
                    process.state = State::Done(Answer::Found(found));
                    out.report.step_found(asker, found);
                }
            }
        }
    }

    #[allow(clippy::too_many_arguments)]
    #[inline]
    fn sent<L: Listener>(
        &mut self,
        config: &Config,
        from: Pid,
        to: Pid,
        number: u64,
        message: &Message,
        part: std::ops::Range<usize>,
        stamp: u64,
        out: &mut Telling<L>,
    ) {
        let slot = self.slot_of(from);
        if let Some(slot) = slot {
            let alien = &mut self.aliens[slot];
            if alien.number > number {
                return;
            }
            if alien.number == number {
                alien.newest = alien.newest.max(stamp);
                return alien.tell(out);
            }
        }
        let Some(target) = self.live(config, to) else {
            return out.negative(to, from, number);
        };
        let Some(slot) = slot.or_else(|| self.free_slot()) else {
            return out.pending(to, from, number);
        };
        // the part is at most 512 bytes, and seldom there
        if part.is_empty() {
            self.arrive(slot, target, from, number, stamp, message, &[], out);
        } else {
            let part = out.outbox.bytes[part].to_vec();
            self.arrive(slot, target, from, number, stamp, message, &part, out);
        }
    }

    #[allow(clippy::too_many_arguments)]
    fn acknowledged<L: Listener>(
        &mut self,
        config: &Config,
        from: Pid,
        to: Pid,
        number: u64,
        moving: u64,
        received: u32,
        out: &mut Telling<L>,
    ) {
        let Some(place) = self.own(config, to) else { return };
        let process = &mut self.processes[place];
        let State::MovingTo(Places { count, .. }) = process.state else { return };
        if !process.is_move(from, number, moving) {
            return;
        }
        let before = process.work.acknowledged;
        if received == count {
            process.state = State::Done(Answer::Ok);
            out.report.step_ending(b"end ", to, b" ok\n");
        } else if before < received && received < count && received % DATA_BYTES == 0 {
            process.work = Work { acknowledged: received, ..Work::begun(self.now) };
            out.round(process);
        } else if received == before {
            process.work.is_answered(self.now);
        }
    }
}
