use crate::raw::CallFields;
use crate::{Error, MESSAGE_BYTES};
use std::fmt;
use std::ops::Range;
use std::str::FromStr;

/// A process: its station, 1 to 65,534, and its number there, 1 to 65,535.
///
/// ```
/// # use vk_station::{Error, Pid};
/// let pid: Pid = "2.1".parse()?;
/// assert_eq!(pid, Pid::new(2, 1)?);
/// assert_eq!(pid.to_string(), "2.1");
/// assert_eq!(Pid::new(2, 0), Err(Error::BadPid));
/// # Ok::<(), Error>(())
/// ```
#[derive(Clone, Copy, Debug, PartialEq, Eq, PartialOrd, Ord, Hash)]
pub struct Pid {
    host: u16,
    local: u16,
}

impl Pid {
    /// The pid of these numbers, or [`Error::BadPid`].
    pub const fn new(host: u16, local: u16) -> Result<Pid, Error> {
        if host == 0 || host == u16::MAX || local == 0 {
            return Err(Error::BadPid);
        }
        Ok(Pid { host, local })
    }

    /// The number of its station.
    pub const fn host(self) -> u16 {
        self.host
    }

    /// Its number at its station.
    pub const fn local(self) -> u16 {
        self.local
    }

    /// One that the archive told.
    pub(crate) const fn told(host: u16, local: u16) -> Pid {
        Pid { host, local }
    }
}

impl fmt::Display for Pid {
    fn fmt(&self, f: &mut fmt::Formatter<'_>) -> fmt::Result {
        write!(f, "{}.{}", self.host, self.local)
    }
}

impl FromStr for Pid {
    type Err = Error;

    fn from_str(text: &str) -> Result<Pid, Error> {
        let (host, local) = text.split_once('.').ok_or(Error::BadPid)?;
        let number = |word: &str| word.parse().map_err(|_| Error::BadPid);
        Pid::new(number(host)?, number(local)?)
    }
}

/// What a message lets its receiver do with the segment that it grants.
#[derive(Clone, Copy, Debug, PartialEq, Eq)]
pub enum Access {
    /// Read it.
    Read,
    /// Write it.
    Write,
    /// Both.
    Both,
}

/// A message of 32 bytes. The lowest bits of the first byte and the last eight bytes say which segment it grants; the rest is the
/// program's.
#[derive(Clone, Copy, PartialEq, Eq, Hash)]
pub struct Message(pub [u8; MESSAGE_BYTES]);

impl Message {
    /// A message of zeros but for these first bytes, which grants nothing if the first one's lowest two bits are 0.
    ///
    /// # Panics
    ///
    /// Where there are more than 32 bytes.
    pub fn from_prefix(bytes: &[u8]) -> Message {
        let mut message = [0; MESSAGE_BYTES];
        message[..bytes.len()].copy_from_slice(bytes);
        Message(message)
    }

    /// The same, with this segment of the sender's memory granted.
    ///
    /// ```
    /// # use vk_station::{Access, Message};
    /// let message = Message::default().granting(Access::Read, 0..512);
    /// assert_eq!(message.0[0], 1);
    /// assert_eq!(message.0[28..], 512_u32.to_be_bytes());
    /// ```
    ///
    /// # Panics
    ///
    /// Where the range ends before it starts.
    pub fn granting(mut self, access: Access, segment: Range<u32>) -> Message {
        assert!(segment.start <= segment.end, "a segment that ends before it starts");
        let bits = match access {
            Access::Read => 1,
            Access::Write => 2,
            Access::Both => 3,
        };
        self.0[0] = self.0[0] & !3 | bits;
        self.0[24..28].copy_from_slice(&segment.start.to_be_bytes());
        self.0[28..].copy_from_slice(&(segment.end - segment.start).to_be_bytes());
        self
    }
}

impl Default for Message {
    fn default() -> Message {
        Message([0; MESSAGE_BYTES])
    }
}

impl fmt::Debug for Message {
    fn fmt(&self, f: &mut fmt::Formatter<'_>) -> fmt::Result {
        let end = self.0.iter().rposition(|byte| *byte != 0).map_or(0, |at| at + 1);
        f.write_str("Message(")?;
        self.0[..end].iter().try_for_each(|byte| write!(f, "{byte:02x}"))?;
        f.write_str(")")
    }
}

/// For whom a logical id stands for a process: those of the station, those of others, or both.
#[derive(Clone, Copy, Debug, PartialEq, Eq)]
pub enum Scope {
    /// Of the station.
    Local,
    /// Of other stations.
    Remote,
    /// Both.
    Both,
}

/// A call of a process. Starts are places in the caller's memory, but where a field's name says whose; `docs/RULES.md` of the repository
/// says when each call is refused and what it does.
#[derive(Clone, Copy, Debug, PartialEq, Eq)]
pub enum Call<'a> {
    /// Sends the message, and waits for the reply.
    Send {
        /// To whom.
        target: Pid,
        /// What.
        message: Message,
    },
    /// Waits for a message.
    Receive,
    /// Waits for a message, and puts the first bytes of its segment at `start`, at most `count`.
    ReceiveSegment {
        /// Where to.
        start: u32,
        /// How many at most.
        count: u32,
    },
    /// Replies to a process whose message was received.
    Reply {
        /// To whom.
        to: Pid,
        /// What.
        message: Message,
    },
    /// Replies, and puts `count` bytes from `src` at `dest` of the segment that the sender granted.
    ReplySegment {
        /// To whom.
        to: Pid,
        /// What.
        message: Message,
        /// Where to, in the sender's memory.
        dest: u32,
        /// Where from.
        src: u32,
        /// How many bytes, at most 512.
        count: u32,
    },
    /// Hands what `from` sent on to a process of the station, which is shown this message.
    Forward {
        /// Who sent it.
        from: Pid,
        /// Who is to receive it.
        to: Pid,
        /// What it is shown.
        message: Message,
    },
    /// Moves bytes into the segment that the partner granted.
    MoveTo {
        /// Whose message was received.
        partner: Pid,
        /// Where to, in the partner's memory.
        dest: u32,
        /// Where from.
        src: u32,
        /// How many bytes, at most 65,536.
        count: u32,
    },
    /// Moves bytes out of the segment that the partner granted.
    MoveFrom {
        /// Whose message was received.
        partner: Pid,
        /// Where to.
        dest: u32,
        /// Where from, in the partner's memory.
        src: u32,
        /// How many bytes, at most 65,536.
        count: u32,
    },
    /// Lets the logical id stand for the process.
    SetPid {
        /// The id.
        logical: u32,
        /// A process of the station.
        pid: Pid,
        /// For whom.
        scope: Scope,
    },
    /// Asks for which process the logical id stands.
    GetPid {
        /// The id.
        logical: u32,
        /// Where to look.
        scope: Scope,
    },
    /// Reads the caller's own memory.
    Load {
        /// From here.
        start: u32,
        /// So many bytes, at most 1,024.
        count: u32,
    },
    /// Writes the caller's own memory.
    Store {
        /// From here.
        start: u32,
        /// These, at most 1,024.
        bytes: &'a [u8],
    },
    /// Ends the process.
    Exit,
}

impl<'a> Call<'a> {
    /// The call in fields, and the bytes of a Store.
    pub(crate) fn fields(&self) -> (CallFields, &'a [u8]) {
        let none = CallFields::default();
        let with = |kind, pid: Pid| CallFields { kind, host: pid.host, local: pid.local, ..none };
        let fields = match *self {
            Call::Send { target, message } => CallFields { message: message.0, ..with(1, target) },
            Call::Receive => CallFields { kind: 2, ..none },
            Call::ReceiveSegment { start, count } => CallFields { kind: 3, start, count, ..none },
            Call::Reply { to, message } => CallFields { message: message.0, ..with(4, to) },
            Call::ReplySegment { to, message, dest, src, count } => CallFields { message: message.0, dest, src, count, ..with(5, to) },
            Call::Forward { from, to, message } => {
                CallFields { message: message.0, to_host: to.host, to_local: to.local, ..with(6, from) }
            }
            Call::MoveTo { partner, dest, src, count } => CallFields { dest, src, count, ..with(7, partner) },
            Call::MoveFrom { partner, dest, src, count } => CallFields { dest, src, count, ..with(8, partner) },
            Call::SetPid { logical, pid, scope } => CallFields { logical, scope: scope as u32, ..with(9, pid) },
            Call::GetPid { logical, scope } => CallFields { kind: 10, logical, scope: scope as u32, ..none },
            Call::Load { start, count } => CallFields { kind: 11, start, count, ..none },
            Call::Store { start, bytes } => return (CallFields { kind: 12, start, ..none }, bytes),
            Call::Exit => CallFields { kind: 13, ..none },
        };
        (fields, &[])
    }
}
