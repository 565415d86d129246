//! Pids, messages, calls and answers.

pub const SEGMENT_BYTES: u32 = 512;
pub const MOVE_BYTES: u32 = 65_536;
pub const DATA_BYTES: u32 = 1_024;
pub const NAMES: usize = 64;

/// Host and local, the host in the upper half, so that pids are in order.
#[derive(Clone, Copy, PartialEq, Eq, PartialOrd, Ord, Hash)]
pub struct Pid(pub u32);

impl Pid {
    pub fn host(self) -> u16 {
        (self.0 >> 16) as u16
    }

    pub fn local(self) -> u16 {
        self.0 as u16
    }

    pub fn is_lawful(self) -> bool {
        self.host() != 0 && self.host() != 65_535 && self.local() != 0
    }
}

#[derive(Clone, Copy)]
pub struct Message(pub [u8; 32]);

impl Message {
    pub const ZERO: Message = Message([0; 32]);

    pub fn word(&self, at: usize) -> u32 {
        u32::from_be_bytes([self.0[at], self.0[at + 1], self.0[at + 2], self.0[at + 3]])
    }

    /// The bytes up to the last that is not 0.
    #[inline]
    pub fn filled(&self) -> usize {
        let (words, _) = self.0.as_chunks::<8>();
        for (place, word) in words.iter().enumerate().rev() {
            let word = u64::from_le_bytes(*word);
            if word != 0 {
                return 8 * place + 8 - word.leading_zeros() as usize / 8;
            }
        }
        0
    }

    pub fn grants_read(&self) -> bool {
        self.0[0] & 1 != 0
    }

    pub fn grants_write(&self) -> bool {
        self.0[0] & 2 != 0
    }

    /// Start and length of the granted segment.
    pub fn segment(&self) -> (u32, u32) {
        if self.0[0] & 3 != 0 {
            (self.word(24), self.word(28))
        } else {
            (0, 0)
        }
    }

    /// The granted segment lies in a memory of this size.
    pub fn fits(&self, memory: usize) -> bool {
        let (start, length) = self.segment();
        lies_in(start, length, memory)
    }

    /// The range lies in the granted segment.
    pub fn grants(&self, start: u32, count: u32) -> bool {
        let (first, length) = self.segment();
        first <= start && u64::from(start) + u64::from(count) <= u64::from(first) + u64::from(length)
    }

    /// Start and end of the first part of the segment, where it may be read.
    pub fn part(&self) -> (usize, usize) {
        if !self.grants_read() {
            return (0, 0);
        }
        let (start, length) = self.segment();
        (start as usize, start as usize + length.min(SEGMENT_BYTES) as usize)
    }
}

/// The range does not end behind a memory of this size.
pub fn lies_in(start: u32, count: u32, memory: usize) -> bool {
    u64::from(start) + u64::from(count) <= memory as u64
}

/// The bytes of the packet of a move that begins at this offset.
pub fn piece_length(total: u32, offset: u32) -> u32 {
    (total - offset).min(DATA_BYTES)
}

#[derive(Clone, Copy, PartialEq, Eq)]
pub enum Scope {
    Local,
    Remote,
    Both,
}

impl Scope {
    pub fn is_found_here(self) -> bool {
        self != Scope::Remote
    }

    pub fn is_found_there(self) -> bool {
        self != Scope::Local
    }
}

/// The places of a move.
#[derive(Clone, Copy)]
pub struct Places {
    pub dest: u32,
    pub src: u32,
    pub count: u32,
}

/// A call. The bytes of a Store stand with the reader.
pub enum Call {
    Send { target: Pid, message: Message },
    Receive,
    ReceiveSegment { start: u32, count: u32 },
    Reply { message: Message, to: Pid },
    ReplySegment { message: Message, to: Pid, places: Places },
    Forward { message: Message, from: Pid, to: Pid },
    MoveTo { partner: Pid, places: Places },
    MoveFrom { partner: Pid, places: Places },
    SetPid { logical: u32, pid: Pid, scope: Scope },
    GetPid { logical: u32, scope: Scope },
    Load { start: u32, count: u32 },
    Store { start: u32 },
    Exit,
}

/// What a call that was begun is answered in the end.
#[derive(Clone, Copy)]
pub enum Answer {
    Ok,
    Replied(Message),
    Received(Pid, Message),
    ReceivedSegment(Pid, Message, u32),
    Found(Pid),
    Refused(&'static str),
}

/// A process that a station has registered under a logical id.
pub struct Registration {
    pub logical: u32,
    pub pid: Pid,
    pub scope: Scope,
}

/// What a station has registered.
#[derive(Default)]
pub struct Names(Vec<Registration>);

impl Names {
    pub fn is_full_for(&self, logical: u32) -> bool {
        self.0.len() >= NAMES && !self.0.iter().any(|name| name.logical == logical)
    }

    pub fn register(&mut self, name: Registration) {
        self.0.retain(|other| other.logical != name.logical);
        self.0.push(name);
    }

    pub fn forget(&mut self, pid: Pid) {
        self.0.retain(|name| name.pid != pid);
    }

    pub fn found_here(&self, logical: u32) -> Option<Pid> {
        self.0.iter().find(|name| name.logical == logical && name.scope.is_found_here()).map(|name| name.pid)
    }

    pub fn found_there(&self, logical: u32) -> Option<Pid> {
        self.0.iter().find(|name| name.logical == logical && name.scope.is_found_there()).map(|name| name.pid)
    }
}
