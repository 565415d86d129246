//! What events tell: the report, and the frames that they emit.

use crate::report::{Listener, Report};
use crate::station::{Process, State};
use crate::values::{piece_length, Message, Pid, Places, DATA_BYTES};
use crate::wire::{front, put_long, put_word, Header, Outbox, EVERY_STATION};

/// What is told of events, to a report where no other listener is named, and the frames that they emit.
pub struct Telling<L = Report> {
    pub report: L,
    pub outbox: Outbox,
    /// The header of the event's last frame, or where there is none yet that of the output 0.
    pub header: Header,
}

impl Telling {
    pub fn new(is_trace: bool) -> Telling {
        Telling::to(Report::new(is_trace))
    }
}

impl<L: Listener> Telling<L> {
    pub fn to(report: L) -> Telling<L> {
        let header = Header { source: 0, destination: 0, stamp: 0, number: 0, event: 0, output: 0 };
        Telling { report, outbox: Outbox::default(), header }
    }

    #[inline(always)]
    fn emit<const FIELDS: usize>(&mut self, destination: u16, kind: &[u8], fields: [u8; FIELDS], bytes: &[u8]) {
        self.header.destination = destination;
        self.header.output += 1;
        let length = self.outbox.seal(&self.header, fields, bytes);
        self.report.frame(&self.header, kind, length);
    }

    pub fn pending(&mut self, from: Pid, to: Pid, number: u64) {
        self.emit(to.host(), b" pending ", front::<17>(3, from, to, number), &[]);
    }

    pub fn negative(&mut self, from: Pid, to: Pid, number: u64) {
        self.emit(to.host(), b" negative ", front::<17>(4, from, to, number), &[]);
    }

    pub fn reply(&mut self, from: Pid, to: Pid, number: u64, message: &Message, dest: u32, bytes: &[u8]) {
        let mut fields = front::<55>(2, from, to, number);
        fields[17..49].copy_from_slice(&message.0);
        put_word(&mut fields, 49, dest);
        fields[53..55].copy_from_slice(&(bytes.len() as u16).to_be_bytes());
        self.emit(to.host(), b" reply ", fields, bytes);
    }

    pub fn move_ack(&mut self, from: Pid, to: Pid, number: u64, moving: u64, received: u32) {
        let mut fields = front::<29>(6, from, to, number);
        put_long(&mut fields, 17, moving);
        put_word(&mut fields, 25, received);
        self.emit(to.host(), b" moveack ", fields, &[]);
    }

    pub fn move_negative(&mut self, from: Pid, to: Pid, number: u64, moving: u64) {
        let mut fields = front::<25>(9, from, to, number);
        put_long(&mut fields, 17, moving);
        self.emit(to.host(), b" movenegative ", fields, &[]);
    }

    /// The packets with the bytes that a sender's memory has from this offset of a move on.
    #[allow(clippy::too_many_arguments)]
    pub fn move_bytes(&mut self, from: &Process, to: Pid, number: u64, moving: u64, src: u32, total: u32, mut offset: u32) {
        while offset < total {
            let mut fields = front::<33>(8, from.pid, to, number);
            put_long(&mut fields, 17, moving);
            put_word(&mut fields, 25, total);
            put_word(&mut fields, 29, offset);
            let start = (src + offset) as usize;
            let bytes = &from.memory[start..start + piece_length(total, offset) as usize];
            self.emit(to.host(), b" movebytes ", fields, bytes);
            offset += DATA_BYTES;
        }
    }

    pub fn tell_pid(&mut self, found: Pid, asker: Pid, lookup: u64) {
        self.emit(asker.host(), b" tellpid ", front::<17>(11, found, asker, lookup), &[]);
    }

    pub fn send(&mut self, process: &Process) {
        let mut fields = front::<49>(1, process.pid, process.target, process.sends);
        fields[17..49].copy_from_slice(&process.message.0);
        self.emit(process.target.host(), b" send ", fields, &process.part);
    }

    fn move_data(&mut self, process: &Process, places: &Places) {
        let moving = &process.moving;
        let mut offset = process.work.acknowledged;
        while offset < places.count {
            let mut fields = front::<37>(5, process.pid, moving.partner, moving.number);
            put_long(&mut fields, 17, moving.moving);
            put_word(&mut fields, 25, places.dest);
            put_word(&mut fields, 29, places.count);
            put_word(&mut fields, 33, offset);
            let start = (places.src + offset) as usize;
            let bytes = &process.memory[start..start + piece_length(places.count, offset) as usize];
            self.emit(moving.partner.host(), b" movedata ", fields, bytes);
            offset += DATA_BYTES;
        }
    }

    fn move_request(&mut self, process: &Process, places: &Places) {
        let moving = &process.moving;
        let mut fields = front::<37>(7, process.pid, moving.partner, moving.number);
        put_long(&mut fields, 17, moving.moving);
        put_word(&mut fields, 25, places.src);
        put_word(&mut fields, 29, places.count);
        put_word(&mut fields, 33, process.work.received);
        self.emit(moving.partner.host(), b" moverequest ", fields, &[]);
    }

    fn ask_pid(&mut self, process: &Process, logical: u32) {
        let mut fields = [0; 17];
        fields[0] = 10;
        put_word(&mut fields, 1, process.pid.0);
        put_long(&mut fields, 5, process.lookups);
        put_word(&mut fields, 13, logical);
        self.emit(EVERY_STATION, b" askpid ", fields, &[]);
    }

    /// The round of the work in which a process is blocked.
    pub fn round(&mut self, process: &Process) {
        match &process.state {
            State::SendingThere => self.send(process),
            State::MovingTo(places) => self.move_data(process, places),
            State::MovingFrom(places) => self.move_request(process, places),
            State::Asking { logical } => self.ask_pid(process, *logical),
            _ => {}
        }
    }

    /// A call that is answered so, with nothing behind its step.
    #[inline(always)]
    pub fn called(&mut self, answer: &[u8], line: &[u8]) {
        self.report.answer_line(answer);
        self.report.step_line(line);
    }
}
