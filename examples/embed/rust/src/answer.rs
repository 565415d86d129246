use crate::raw::AnswerFields;
use crate::{Message, Pid};
use std::fmt;

/// What an event was answered with.
#[derive(Clone, Debug, PartialEq, Eq)]
pub enum Answer {
    /// The call waits; a collect gives its answer later.
    Begun,
    /// The call is done, with nothing more to tell.
    Done,
    /// The reply to a Send.
    Replied {
        /// What was replied.
        message: Message,
    },
    /// A message was received.
    Received {
        /// Who sent it.
        from: Pid,
        /// What it says.
        message: Message,
    },
    /// A message was received, and the first bytes of its segment.
    ReceivedSegment {
        /// Who sent it.
        from: Pid,
        /// What it says.
        message: Message,
        /// How many bytes came.
        count: u32,
    },
    /// The process for which a logical id stands.
    Found {
        /// That process.
        pid: Pid,
    },
    /// Bytes of the caller's memory.
    Loaded {
        /// Those bytes.
        bytes: Vec<u8>,
    },
    /// The call was refused, or failed.
    Refused {
        /// Why.
        why: Refusal,
    },
    /// The clock ticked.
    Ticked {
        /// The station's new tick.
        now: u64,
    },
    /// A frame was taken.
    Taken,
    /// A frame was too old, and is dropped.
    Old,
    /// The bytes were no frame for this station, and are dropped.
    Bad,
}

impl Answer {
    /// Of these fields, where the bytes of a Load are these.
    pub(crate) fn of(fields: &AnswerFields, bytes: Vec<u8>) -> Answer {
        let (pid, message) = (Pid::told(fields.host, fields.local), Message(fields.message));
        match fields.kind {
            1 => Answer::Begun,
            2 => Answer::Done,
            3 => Answer::Replied { message },
            4 => Answer::Received { from: pid, message },
            5 => Answer::ReceivedSegment { from: pid, message, count: fields.count },
            6 => Answer::Found { pid },
            7 => Answer::Loaded { bytes },
            8 => Answer::Refused { why: Refusal::of(fields.why) },
            9 => Answer::Ticked { now: fields.now },
            10 => Answer::Taken,
            11 => Answer::Old,
            12 => Answer::Bad,
            other => unreachable!("the archive has no answer of kind {other}"),
        }
    }

    /// The answer, or why the call was refused: for `?`.
    ///
    /// ```
    /// # use vk_station::{Answer, Refusal};
    /// assert_eq!(Answer::Done.or_refusal(), Ok(Answer::Done));
    /// assert_eq!(Answer::Refused { why: Refusal::Busy }.or_refusal(), Err(Refusal::Busy));
    /// ```
    pub fn or_refusal(self) -> Result<Answer, Refusal> {
        match self {
            Answer::Refused { why } => Err(why),
            answer => Ok(answer),
        }
    }
}

/// Why a call was refused, or failed.
#[derive(Clone, Copy, Debug, PartialEq, Eq, Hash)]
pub enum Refusal {
    /// There is no such process.
    NoProcess,
    /// The other station did not answer.
    TimedOut,
    /// The message grants a segment that the memory has not.
    BadSegment,
    /// The process awaits no reply from the caller.
    NotAwaiting,
    /// Its message does not grant this.
    NoAccess,
    /// The memory has no such range.
    BadRange,
    /// Too many bytes for one call.
    TooLong,
    /// The partner of a move is gone.
    Gone,
    /// No process is known by the logical id.
    NotFound,
    /// The station has as many logical ids as it can have.
    NamesFull,
    /// The process waits for the answer to an earlier call.
    Busy,
    /// There is nothing to collect.
    NotYet,
    /// The process has ended.
    Dead,
}

impl Refusal {
    fn of(why: u32) -> Refusal {
        match why {
            1 => Refusal::NoProcess,
            2 => Refusal::TimedOut,
            3 => Refusal::BadSegment,
            4 => Refusal::NotAwaiting,
            5 => Refusal::NoAccess,
            6 => Refusal::BadRange,
            7 => Refusal::TooLong,
            8 => Refusal::Gone,
            9 => Refusal::NotFound,
            10 => Refusal::NamesFull,
            11 => Refusal::Busy,
            12 => Refusal::NotYet,
            13 => Refusal::Dead,
            other => unreachable!("the archive has no refusal {other}"),
        }
    }
}

impl fmt::Display for Refusal {
    fn fmt(&self, f: &mut fmt::Formatter<'_>) -> fmt::Result {
        f.write_str(match self {
            Refusal::NoProcess => "there is no such process",
            Refusal::TimedOut => "the other station did not answer",
            Refusal::BadSegment => "the message grants a segment that the memory has not",
            Refusal::NotAwaiting => "the process awaits no reply from the caller",
            Refusal::NoAccess => "the message does not grant this",
            Refusal::BadRange => "the memory has no such range",
            Refusal::TooLong => "too many bytes for one call",
            Refusal::Gone => "the partner of the move is gone",
            Refusal::NotFound => "no process is known by the logical id",
            Refusal::NamesFull => "the station has as many logical ids as it can have",
            Refusal::Busy => "the process waits for the answer to an earlier call",
            Refusal::NotYet => "there is nothing to collect",
            Refusal::Dead => "the process has ended",
        })
    }
}

impl std::error::Error for Refusal {}
