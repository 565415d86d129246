//! Two stations in one process: a client of station 1 sends to a server of station 2 over a loop that loses every third frame.
#![forbid(unsafe_code)]

use std::collections::VecDeque;
use std::error::Error;
use vk_station::{Answer, Call, Frame, Message, Pid, Process, Settings, Station};

/// The stations 1 and 2, and the frames between them.
struct Net {
    stations: [Station; 2],
    queue: VecDeque<Frame>,
    sent: u32,
    lost: u32,
}

impl Net {
    fn station(&mut self, host: u16) -> &mut Station {
        &mut self.stations[usize::from(host) - 1]
    }

    /// Puts the frames of the station's last event into the loop, but for every third.
    fn send(&mut self, host: u16) {
        for frame in self.stations[usize::from(host) - 1].frames() {
            self.sent += 1;
            if self.sent % 3 == 0 {
                self.lost += 1;
            } else {
                self.queue.push_back(frame);
            }
        }
    }

    fn call(&mut self, pid: Pid, call: &Call<'_>) -> Result<Answer, Box<dyn Error>> {
        let answer = self.station(pid.host()).call(pid, call)?.or_refusal()?;
        self.send(pid.host());
        Ok(answer)
    }

    /// Delivers what is in the loop, and ticks, until the process has something to collect.
    fn collect(&mut self, pid: Pid) -> Result<Answer, Box<dyn Error>> {
        loop {
            while let Some(frame) = self.queue.pop_front() {
                for host in [1, 2].into_iter().filter(|host| frame.is_for(*host)) {
                    self.station(host).deliver(&frame)?;
                    self.send(host);
                }
            }
            if self.station(pid.host()).is_done(pid) {
                return Ok(self.station(pid.host()).collect(pid)?.or_refusal()?);
            }
            for host in 1..=2 {
                self.station(host).tick()?;
                self.send(host);
            }
        }
    }
}

fn main() -> Result<(), Box<dyn Error>> {
    let (client, server) = (Pid::new(1, 1)?, Pid::new(2, 1)?);
    let settings = Settings { tries: 5, interval: 3, life: 20, pool: 4 };
    let processes = [client, server].map(|pid| Process { pid, size: 0 });
    let stations = [Station::open(&settings, &processes, 1)?, Station::open(&settings, &processes, 2)?];
    let mut net = Net { stations, queue: VecDeque::new(), sent: 0, lost: 0 };
    for round in 1..=5 {
        net.call(server, &Call::Receive)?;
        net.call(client, &Call::Send { target: server, message: Message::from_prefix(&[0, round]) })?;
        let Answer::Received { from, message } = net.collect(server)? else { return Err("nothing received".into()) };
        net.call(server, &Call::Reply { to: from, message: Message::from_prefix(&[0, 2 * message.0[1]]) })?;
        println!("round {round}: received {message:?} from {from}, {:?}", net.collect(client)?);
    }
    println!("{} frames, {} lost", net.sent, net.lost);
    Ok(())
}
