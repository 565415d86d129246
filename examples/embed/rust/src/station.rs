use crate::raw::{AnswerFields, PoolFields, ProcessFields, Raw, SettingsFields};
use crate::{Answer, Call, Error, Frames, Pid, Steps, DATA_BYTES};
use std::fmt;

/// The times of all stations, and how many remote senders each keeps something of. All stations of a run have the same.
#[derive(Clone, Copy, Debug, PartialEq, Eq)]
pub struct Settings {
    /// How often something is sent that is not answered, 1 to 16.
    pub tries: u32,
    /// Ticks between two transmissions, 1 to 64.
    pub interval: u32,
    /// Ticks until a frame is old, 0 to 1,024.
    pub life: u32,
    /// Slots for remote senders of each station, 1 to 64.
    pub pool: u32,
}

impl Default for Settings {
    /// 5 tries, 4 ticks apart; frames are old after 8 ticks; 16 slots.
    fn default() -> Settings {
        Settings { tries: 5, interval: 4, life: 8, pool: 16 }
    }
}

/// A process, and the bytes of its memory, at most 131,072.
#[derive(Clone, Copy, Debug, PartialEq, Eq)]
pub struct Process {
    /// Who it is.
    pub pid: Pid,
    /// How much memory it has.
    pub size: u32,
}

/// The slots for remote senders that one station has, 1 to 64, in place of those of the settings.
#[derive(Clone, Copy, Debug, PartialEq, Eq)]
pub struct Pool {
    /// The station.
    pub host: u16,
    /// How many.
    pub slots: u16,
}

/// One station. It keeps no history, and takes no memory after it was opened.
///
/// It stays on its thread:
///
/// ```compile_fail
/// fn needs_send<T: Send>() {}
/// needs_send::<vk_station::Station>();
/// ```
pub struct Station {
    host: u16,
    raw: Raw,
}

impl Station {
    /// The station of this number before its first event. The processes are those of all stations, by rising pids.
    ///
    /// # Errors
    ///
    /// As [`Error`] says of each.
    pub fn open(settings: &Settings, processes: &[Process], host: u16) -> Result<Station, Error> {
        Station::open_with_pools(settings, processes, &[], host)
    }

    /// The same, where some stations have pools of their own.
    ///
    /// # Errors
    ///
    /// As [`Error`] says of each.
    pub fn open_with_pools(settings: &Settings, processes: &[Process], pools: &[Pool], host: u16) -> Result<Station, Error> {
        let Settings { tries, interval, life, pool } = *settings;
        let fields = |p: &Process| ProcessFields { host: p.pid.host(), local: p.pid.local(), size: p.size };
        let processes: Vec<_> = processes.iter().map(fields).collect();
        let pools: Vec<_> = pools.iter().map(|p| PoolFields { host: p.host, slots: p.slots }).collect();
        let mut raw = Raw::none();
        Error::told(raw.open(&SettingsFields { tries, interval, life, pool }, &processes, &pools, host))?;
        Ok(Station { host, raw })
    }

    /// Its number.
    pub fn host(&self) -> u16 {
        self.host
    }

    /// The process makes the call.
    ///
    /// # Errors
    ///
    /// [`Error::NoSuchProcess`], [`Error::TooManyBytes`] or [`Error::Spent`]. What the rules refuse is [`Answer::Refused`].
    pub fn call(&mut self, pid: Pid, call: &Call<'_>) -> Result<Answer, Error> {
        let (fields, bytes) = call.fields();
        let mut answer = AnswerFields::default();
        Error::told(self.raw.call(pid.host(), pid.local(), &fields, bytes, &mut answer))?;
        Ok(match *call {
            Call::Load { start, count } if answer.kind == 7 => Answer::of(&answer, self.loaded(pid, start, count)?),
            _ => Answer::of(&answer, Vec::new()),
        })
    }

    fn loaded(&self, pid: Pid, start: u32, count: u32) -> Result<Vec<u8>, Error> {
        let (mut room, mut len) = ([0; DATA_BYTES], 0);
        Error::told(self.raw.loaded(pid.host(), pid.local(), start, count, &mut room, &mut len))?;
        Ok(room[..len].to_vec())
    }

    /// The process collects the answer to its last call. One that comes too early is refused.
    ///
    /// # Errors
    ///
    /// [`Error::NoSuchProcess`] or [`Error::Spent`].
    pub fn collect(&mut self, pid: Pid) -> Result<Answer, Error> {
        let mut answer = AnswerFields::default();
        Error::told(self.raw.collect(pid.host(), pid.local(), &mut answer))?;
        Ok(Answer::of(&answer, Vec::new()))
    }

    /// The clock ticks: what is due is sent again or given up.
    ///
    /// # Errors
    ///
    /// [`Error::Spent`].
    pub fn tick(&mut self) -> Result<Answer, Error> {
        let mut answer = AnswerFields::default();
        Error::told(self.raw.tick(&mut answer))?;
        Ok(Answer::of(&answer, Vec::new()))
    }

    /// These bytes came, whatever they are.
    ///
    /// # Errors
    ///
    /// [`Error::Spent`].
    pub fn deliver(&mut self, bytes: &[u8]) -> Result<Answer, Error> {
        let mut answer = AnswerFields::default();
        Error::told(self.raw.deliver(bytes, &mut answer))?;
        Ok(Answer::of(&answer, Vec::new()))
    }

    /// Whether the process has an answer to collect; no process of another station has.
    pub fn is_done(&self, pid: Pid) -> bool {
        self.raw.is_done(pid.host(), pid.local())
    }

    /// The frames of the last event. They stand until the next one:
    ///
    /// ```compile_fail
    /// # fn of(station: &mut vk_station::Station) {
    /// let frames = station.frames();
    /// station.tick();
    /// frames.count();
    /// # }
    /// ```
    pub fn frames(&self) -> Frames<'_> {
        Frames { raw: &self.raw, at: 0, end: self.raw.frame_count() }
    }

    /// The steps of the one-machine kernel that the last event was.
    ///
    /// ```
    /// # use vk_station::{Call, Error, Pid, Process, Settings, Station};
    /// let pid = Pid::new(1, 2)?;
    /// let mut station = Station::open(&Settings::default(), &[Process { pid, size: 0 }], 1)?;
    /// station.call(pid, &Call::Receive)?;
    /// assert_eq!(station.steps().collect::<Vec<_>>(), ["call 1.2 receive"]);
    /// # Ok::<(), Error>(())
    /// ```
    pub fn steps(&self) -> Steps<'_> {
        Steps { raw: &self.raw, at: 0, end: self.raw.step_count() }
    }

    /// Its tick.
    pub fn now(&self) -> u64 {
        self.raw.now()
    }

    /// Its Lamport number.
    pub fn number(&self) -> u64 {
        self.raw.number()
    }

    /// How many events it had.
    pub fn events(&self) -> u64 {
        self.raw.events()
    }
}

impl fmt::Debug for Station {
    fn fmt(&self, f: &mut fmt::Formatter<'_>) -> fmt::Result {
        f.debug_struct("Station").field("host", &self.host).field("now", &self.now()).field("events", &self.events()).finish()
    }
}
