//! Frames and packets as bytes, and the frames that were emitted.

use std::ops::Range;

use crate::values::{piece_length, Message, Pid, DATA_BYTES, MOVE_BYTES, SEGMENT_BYTES};

pub const EVERY_STATION: u16 = 65_535;
const MARK: u16 = 0x564b;
pub const HEADER_BYTES: usize = 32;
const MOST: u64 = i64::MAX as u64;

/// The header of a frame.
pub struct Header {
    pub source: u16,
    pub destination: u16,
    pub stamp: u64,
    pub number: u64,
    pub event: u64,
    pub output: u16,
}

/// A packet. Its bytes stand in the outbox, in this range.
pub enum Packet {
    Send { from: Pid, to: Pid, number: u64, message: Message, part: Range<usize> },
    Reply { from: Pid, to: Pid, number: u64, message: Message, dest: u32, bytes: Range<usize> },
    Pending { from: Pid, to: Pid, number: u64 },
    Negative { from: Pid, to: Pid, number: u64 },
    MoveData { from: Pid, to: Pid, number: u64, moving: u64, dest: u32, total: u32, offset: u32, bytes: Range<usize> },
    MoveAck { from: Pid, to: Pid, number: u64, moving: u64, received: u32 },
    MoveRequest { from: Pid, to: Pid, number: u64, moving: u64, src: u32, total: u32, offset: u32 },
    MoveBytes { from: Pid, to: Pid, number: u64, moving: u64, total: u32, offset: u32, bytes: Range<usize> },
    MoveNegative { from: Pid, to: Pid, number: u64, moving: u64 },
    AskPid { asker: Pid, lookup: u64, logical: u32 },
    TellPid { found: Pid, asker: Pid, lookup: u64 },
}

/// Reads numbers, their highest byte first.
struct Fields<'a> {
    bytes: &'a [u8],
}

impl Fields<'_> {
    #[inline(always)]
    fn take<const N: usize>(&mut self) -> Option<[u8; N]> {
        let (field, rest) = self.bytes.split_first_chunk()?;
        self.bytes = rest;
        Some(*field)
    }

    #[inline(always)]
    fn short(&mut self) -> Option<u16> {
        self.take().map(u16::from_be_bytes)
    }

    #[inline(always)]
    fn word(&mut self) -> Option<u32> {
        self.take().map(u32::from_be_bytes)
    }

    #[inline(always)]
    fn long(&mut self) -> Option<u64> {
        self.take().map(u64::from_be_bytes)
    }

    /// The number of a Send, a move or a lookup.
    #[inline(always)]
    fn ordinal(&mut self) -> Option<u64> {
        self.long().filter(|&number| number.wrapping_sub(1) < MOST)
    }

    #[inline(always)]
    fn pid(&mut self) -> Option<Pid> {
        self.word().map(Pid).filter(|pid| pid.is_lawful())
    }

    #[inline(always)]
    fn message(&mut self) -> Option<Message> {
        self.take().map(Message)
    }

    /// Total and offset of a move.
    #[inline(always)]
    fn place(&mut self) -> Option<(u32, u32)> {
        let (total, offset) = (self.word()?, self.word()?);
        if total <= MOVE_BYTES && offset % DATA_BYTES == 0 && offset < total {
            Some((total, offset))
        } else {
            None
        }
    }

    /// The rest, which has so many bytes, of a packet that ends at this place.
    #[inline(always)]
    fn rest(&self, count: usize, end: usize) -> Option<Range<usize>> {
        if self.bytes.len() == count {
            Some(end - count..end)
        } else {
            None
        }
    }

    #[inline(always)]
    fn end(&self) -> Option<()> {
        if self.bytes.is_empty() {
            Some(())
        } else {
            None
        }
    }
}

/// The header with which these bytes begin, where something stands behind it.
#[inline(always)]
pub fn open(bytes: &[u8]) -> Option<Header> {
    let mut fields = Fields { bytes };
    let mark = fields.short()?;
    let header = Header {
        source: fields.short()?,
        destination: fields.short()?,
        stamp: fields.long()?,
        number: fields.long()?,
        event: fields.ordinal()?,
        output: fields.short()?,
    };
    let is_lawful = mark == MARK
        && header.source != 0
        && header.source != EVERY_STATION
        && header.destination != 0
        && header.stamp <= MOST
        && header.number <= MOST
        && header.output != 0
        && !fields.bytes.is_empty();
    if is_lawful {
        Some(header)
    } else {
        None
    }
}

/// The packet that these bytes spell, which end at this place of the outbox. It has to be between these stations.
#[inline(always)]
pub fn decode(bytes: &[u8], end: usize, header: &Header) -> Option<Packet> {
    let (&kind, rest) = bytes.split_first()?;
    let mut fields = Fields { bytes: rest };
    let from = fields.pid()?;
    if from.host() != header.source {
        return None;
    }
    if kind == 10 {
        let (lookup, logical) = (fields.ordinal()?, fields.word()?);
        fields.end()?;
        return if header.destination == EVERY_STATION { Some(Packet::AskPid { asker: from, lookup, logical }) } else { None };
    }
    let to = fields.pid()?;
    let number = fields.ordinal()?;
    if to.host() != header.destination {
        return None;
    }
    let packet = match kind {
        1 => {
            let message = fields.message()?;
            let (start, behind) = message.part();
            Packet::Send { from, to, number, message, part: fields.rest(behind - start, end)? }
        }
        2 => {
            let (message, dest, count) = (fields.message()?, fields.word()?, fields.short()?);
            if u32::from(count) > SEGMENT_BYTES {
                return None;
            }
            Packet::Reply { from, to, number, message, dest, bytes: fields.rest(usize::from(count), end)? }
        }
        3 => {
            fields.end()?;
            Packet::Pending { from, to, number }
        }
        4 => {
            fields.end()?;
            Packet::Negative { from, to, number }
        }
        5 => {
            let (moving, dest) = (fields.ordinal()?, fields.word()?);
            let (total, offset) = fields.place()?;
            let bytes = fields.rest(piece_length(total, offset) as usize, end)?;
            Packet::MoveData { from, to, number, moving, dest, total, offset, bytes }
        }
        6 => {
            let (moving, received) = (fields.ordinal()?, fields.word()?);
            fields.end()?;
            if received > MOVE_BYTES {
                return None;
            }
            Packet::MoveAck { from, to, number, moving, received }
        }
        7 => {
            let (moving, src) = (fields.ordinal()?, fields.word()?);
            let (total, offset) = fields.place()?;
            fields.end()?;
            Packet::MoveRequest { from, to, number, moving, src, total, offset }
        }
        8 => {
            let moving = fields.ordinal()?;
            let (total, offset) = fields.place()?;
            let bytes = fields.rest(piece_length(total, offset) as usize, end)?;
            Packet::MoveBytes { from, to, number, moving, total, offset, bytes }
        }
        9 => {
            let moving = fields.ordinal()?;
            fields.end()?;
            Packet::MoveNegative { from, to, number, moving }
        }
        11 => {
            fields.end()?;
            Packet::TellPid { found: from, asker: to, lookup: number }
        }
        _ => return None,
    };
    Some(packet)
}

/// The frames of an event: the first of them among all frames, and how many.
#[derive(Clone, Copy)]
pub struct Outputs {
    pub first: u32,
    pub count: u32,
}

/// All frames that were emitted, one behind the other.
#[derive(Default)]
pub struct Outbox {
    pub bytes: Vec<u8>,
    ends: Vec<u32>,
}

impl Outbox {
    pub fn count(&self) -> usize {
        self.ends.len()
    }

    /// Forgets all frames but the last so many, and tells how many they were, and how many bytes.
    pub fn keep_last(&mut self, count: usize) -> (usize, usize) {
        let first = self.ends.len().saturating_sub(count);
        let start = if first == 0 { 0 } else { self.ends[first - 1] };
        self.bytes.drain(..start as usize);
        self.ends.drain(..first);
        for end in &mut self.ends {
            *end -= start;
        }
        (first, start as usize)
    }

    pub fn clear(&mut self) {
        self.bytes.clear();
        self.ends.clear();
    }

    /// Puts a frame behind the others.
    pub fn push(&mut self, frame: &[u8]) {
        self.bytes.extend_from_slice(frame);
        self.ends.push(self.bytes.len() as u32);
    }

    /// Where a frame stands.
    #[inline]
    pub fn range(&self, frame: usize) -> Range<usize> {
        let start = if frame == 0 { 0 } else { self.ends[frame - 1] };
        start as usize..self.ends[frame] as usize
    }

    #[inline]
    pub fn destination(&self, frame: usize) -> u16 {
        let start = self.range(frame).start;
        u16::from_be_bytes([self.bytes[start + 4], self.bytes[start + 5]])
    }

    /// A header and the fields of a packet, and the bytes at its end. Gives the length of the frame.
    #[inline(always)]
    pub fn seal<const FIELDS: usize>(&mut self, header: &Header, fields: [u8; FIELDS], bytes: &[u8]) -> usize {
        let mut sealed = [0; HEADER_BYTES];
        sealed[0..2].copy_from_slice(&MARK.to_be_bytes());
        sealed[2..4].copy_from_slice(&header.source.to_be_bytes());
        sealed[4..6].copy_from_slice(&header.destination.to_be_bytes());
        sealed[6..14].copy_from_slice(&header.stamp.to_be_bytes());
        sealed[14..22].copy_from_slice(&header.number.to_be_bytes());
        sealed[22..30].copy_from_slice(&header.event.to_be_bytes());
        sealed[30..32].copy_from_slice(&header.output.to_be_bytes());
        self.bytes.extend_from_slice(&sealed);
        self.bytes.extend_from_slice(&fields);
        if !bytes.is_empty() {
            self.bytes.extend_from_slice(bytes);
        }
        self.ends.push(self.bytes.len() as u32);
        HEADER_BYTES + FIELDS + bytes.len()
    }
}

/// Kind, from, to and number, with which every packet begins but that of a question, and so many bytes behind.
#[inline(always)]
pub fn front<const FIELDS: usize>(kind: u8, from: Pid, to: Pid, number: u64) -> [u8; FIELDS] {
    let mut fields = [0; FIELDS];
    fields[0] = kind;
    fields[1..5].copy_from_slice(&from.0.to_be_bytes());
    fields[5..9].copy_from_slice(&to.0.to_be_bytes());
    fields[9..17].copy_from_slice(&number.to_be_bytes());
    fields
}

/// Puts a number into fields.
#[inline(always)]
pub fn put_word<const FIELDS: usize>(fields: &mut [u8; FIELDS], at: usize, value: u32) {
    fields[at..at + 4].copy_from_slice(&value.to_be_bytes());
}

#[inline(always)]
pub fn put_long<const FIELDS: usize>(fields: &mut [u8; FIELDS], at: usize, value: u64) {
    fields[at..at + 8].copy_from_slice(&value.to_be_bytes());
}
