use std::fmt;

/// Why something is no event of the station, or why there is no such station. Nothing was changed.
#[derive(Clone, Copy, Debug, PartialEq, Eq, Hash)]
#[non_exhaustive]
pub enum Error {
    /// The process is none of the station's.
    NoSuchProcess,
    /// A Store of more than [`crate::DATA_BYTES`].
    TooManyBytes,
    /// The station has had all its 2^48 events.
    Spent,
    /// No memory was to be had.
    NoMemory,
    /// The number of a station is 1 to 65,534.
    BadHost,
    /// A pid has a host of 1 to 65,534 and a local of 1 to 65,535.
    BadPid,
    /// Tries, interval or life are out of range.
    BadTimes,
    /// A pool has 1 to 64 slots.
    BadPool,
    /// The processes do not stand by rising pids.
    NotRising,
    /// A process has more than 131,072 bytes of memory.
    BadSize,
    /// There are more than 16 stations, or more than 32 processes of one.
    TooMany,
    /// A pool is of a station that has no process.
    NoSuchStation,
    /// A number that the archive does not answer here.
    Other(u32),
}

impl Error {
    /// What a number of the archive says.
    pub(crate) fn told(status: u32) -> Result<(), Error> {
        Err(match status {
            0 => return Ok(()),
            3 => Error::NoSuchProcess,
            4 => Error::TooManyBytes,
            5 => Error::Spent,
            8 => Error::NoMemory,
            9 => Error::BadHost,
            10 => Error::BadPid,
            11 => Error::BadTimes,
            12 => Error::BadPool,
            13 => Error::NotRising,
            14 => Error::BadSize,
            15 => Error::TooMany,
            17 => Error::NoSuchStation,
            other => Error::Other(other),
        })
    }
}

impl fmt::Display for Error {
    fn fmt(&self, f: &mut fmt::Formatter<'_>) -> fmt::Result {
        f.write_str(match self {
            Error::NoSuchProcess => "the station has no such process",
            Error::TooManyBytes => "a store has at most 1024 bytes",
            Error::Spent => "the station has had all its events",
            Error::NoMemory => "out of memory",
            Error::BadHost => "no station has this number",
            Error::BadPid => "no process has this pid",
            Error::BadTimes => "the times are out of range",
            Error::BadPool => "a pool has 1 to 64 slots",
            Error::NotRising => "the processes do not stand by rising pids",
            Error::BadSize => "a process has too much memory",
            Error::TooMany => "too many stations or processes",
            Error::NoSuchStation => "a pool is of a station without processes",
            Error::Other(status) => return write!(f, "number {status}"),
        })
    }
}

impl std::error::Error for Error {}
