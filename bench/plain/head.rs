//! The configuration with which schedules, scenarios and traces begin.

use std::ops::Range;

use crate::text::Reader;
use crate::values::Pid;

/// The most stations of a configuration.
pub const STATIONS: usize = 16;
const STATION_PROCESSES: usize = 32;
const MEMORY_BYTES: u64 = 131_072;
const TRIES: u64 = 16;
const INTERVAL: u64 = 64;
const LIFE: u64 = 1_024;
/// The most aliens of a station.
pub const POOL: usize = 64;
/// The aliens of a station of which a text tells none.
pub const USUAL_POOL: u32 = 16;

/// So many transmissions of a work, so many ticks apart, and the ticks after which a frame is old.
#[derive(Clone, Copy, PartialEq, Eq)]
pub struct Times {
    pub tries: u32,
    pub interval: u64,
    pub life: u64,
}

impl Times {
    /// Where a text tells none.
    pub const USUAL: Times = Times { tries: 5, interval: 4, life: 8 };

    /// So many ticks behind its closing and its newest copy an alien is kept.
    pub fn span(&self) -> u64 {
        u64::from(self.tries) * self.interval + 2 * self.life
    }
}

/// The processes by rising pids, and the hosts of the stations with the numbers of their aliens.
pub struct Config {
    pub times: Times,
    pub processes: Vec<(Pid, u32)>,
    pub hosts: Vec<u16>,
    pub pools: Vec<u32>,
    /// The lines of a text that told it, and where in that text the processes stand.
    pub lines: usize,
    pub listed: Range<usize>,
    /// From hosts, and from stations with locals, to places in these lists, one higher; 0 is none.
    station_of: Vec<u8>,
    process_of: Vec<u16>,
}

impl Config {
    fn new() -> Config {
        Config {
            times: Times::USUAL,
            processes: Vec::new(),
            hosts: Vec::new(),
            pools: Vec::new(),
            lines: 0,
            listed: 0..0,
            station_of: vec![0; 65_536],
            process_of: Vec::new(),
        }
    }

    /// The configuration of these processes, with the times and pools of which a text tells none.
    pub fn usual(processes: &[(Pid, u32)]) -> Config {
        let mut config = Config::new();
        for &(pid, size) in processes {
            config.add(pid, size);
        }
        config.index();
        config
    }

    /// Whether format 1 tells all of it.
    pub fn is_usual(&self) -> bool {
        self.times == Times::USUAL && self.pools.iter().all(|&pool| pool == USUAL_POOL)
    }

    /// The place of this station among the stations.
    #[inline]
    pub fn station(&self, host: u16) -> Option<usize> {
        match self.station_of[usize::from(host)] {
            0 => None,
            place => Some(usize::from(place) - 1),
        }
    }

    /// The place of this process among all processes.
    #[inline]
    pub fn process(&self, pid: Pid) -> Option<usize> {
        let station = self.station(pid.host())?;
        match self.process_of[station << 16 | usize::from(pid.local())] {
            0 => None,
            place => Some(usize::from(place) - 1),
        }
    }

    /// Adds a process, where nothing is wrong with it.
    fn add(&mut self, pid: Pid, size: u32) -> Option<()> {
        if self.processes.last().is_some_and(|last| last.0 >= pid) {
            return None;
        }
        if self.station(pid.host()).is_none() {
            if self.hosts.len() == STATIONS {
                return None;
            }
            self.hosts.push(pid.host());
            self.pools.push(USUAL_POOL);
            self.station_of[usize::from(pid.host())] = self.hosts.len() as u8;
        }
        let before = self.processes.iter().rev().take_while(|other| other.0.host() == pid.host()).count();
        if before == STATION_PROCESSES {
            return None;
        }
        self.processes.push((pid, size));
        Some(())
    }

    /// Makes the table of the processes.
    fn index(&mut self) {
        self.process_of = vec![0; self.hosts.len() << 16];
        for (place, (pid, _)) in self.processes.iter().enumerate() {
            let station = usize::from(self.station_of[usize::from(pid.host())]) - 1;
            self.process_of[station << 16 | usize::from(pid.local())] = place as u16 + 1;
        }
    }
}

fn process_line(reader: &mut Reader) -> Option<(Pid, u32)> {
    reader.skip(b"process ")?;
    let pid = reader.pid()?;
    reader.space()?;
    let size = reader.number(MEMORY_BYTES)?;
    reader.end()?;
    Some((pid, size as u32))
}

/// The lines of processes, as far as they go.
fn read_processes(reader: &mut Reader, config: &mut Config) {
    let first = reader.place();
    loop {
        let start = reader.place();
        let added = process_line(reader).and_then(|(pid, size)| config.add(pid, size));
        if added.is_none() {
            reader.go_back(start);
            break;
        }
    }
    config.lines += config.processes.len();
    config.listed = first..reader.place();
    config.index();
}

fn times_line(reader: &mut Reader) -> Option<Times> {
    reader.skip(b"times ")?;
    let tries = reader.positive(TRIES)? as u32;
    reader.space()?;
    let interval = reader.positive(INTERVAL)?;
    reader.space()?;
    let life = reader.number(LIFE)?;
    reader.end()?;
    Some(Times { tries, interval, life })
}

/// The place of a station, which is at least `least`, and the number of its aliens.
fn pool_line(reader: &mut Reader, config: &Config, least: usize) -> Option<(usize, u32)> {
    reader.skip(b"pool ")?;
    let station = config.station(reader.station()?).filter(|&station| least <= station)?;
    reader.space()?;
    let pool = reader.positive(POOL as u64)?;
    reader.end()?;
    Some((station, pool as u32))
}

/// The lines of pools, by rising stations, as far as they go.
fn read_pools(reader: &mut Reader, config: &mut Config) {
    let mut least = 0;
    loop {
        let start = reader.place();
        let Some((station, pool)) = pool_line(reader, config, least) else {
            reader.go_back(start);
            return;
        };
        config.pools[station] = pool;
        config.lines += 1;
        least = station + 1;
    }
}

/// The title of a trace and the processes. The reader stands behind them.
pub fn read_head(reader: &mut Reader, title: &[u8]) -> Option<Config> {
    reader.skip(title)?;
    let mut config = Config::new();
    config.lines = 1;
    read_processes(reader, &mut config);
    Some(config)
}

/// The opening of a schedule or a scenario in one of the two formats, whose number stands behind this title; or its first bad line.
pub fn read_opening(reader: &mut Reader, title: &[u8]) -> Result<Config, usize> {
    reader.skip(title).ok_or(1_usize)?;
    if let Some(config) = read_head(reader, b"1\n") {
        return Ok(config);
    }
    reader.skip(b"2\n").ok_or(1_usize)?;
    let mut config = Config::new();
    config.times = times_line(reader).ok_or(2_usize)?;
    config.lines = 2;
    read_processes(reader, &mut config);
    read_pools(reader, &mut config);
    Ok(config)
}
