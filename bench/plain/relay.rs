//! `relay MICROSECONDS IN OUT IN OUT ..`: each datagram that comes to a port IN goes on to its port OUT, so much later. Ends with its input.

use std::io::{Read, Result};
use std::net::{Ipv4Addr, UdpSocket};
use std::sync::mpsc::channel;
use std::thread::{sleep, spawn};
use std::time::{Duration, Instant};

/// A sleep ends late, so the last part of a delay is spent awake.
const AWAKE: Duration = Duration::from_micros(30);
/// Nanoseconds by which sleeps may end later, so that the system has less to do.
const SLACK: &str = "1000";

fn wait_until(due: Instant) {
    let left = due.saturating_duration_since(Instant::now());
    if left > AWAKE {
        sleep(left - AWAKE);
    }
    while Instant::now() < due {
        std::hint::spin_loop();
    }
}

/// One thread receives and says when each datagram is due, another sends them.
fn pass_on(delay: Duration, from: u16, to: u16) -> Result<()> {
    let inward = UdpSocket::bind((Ipv4Addr::LOCALHOST, from))?;
    let outward = UdpSocket::bind((Ipv4Addr::LOCALHOST, 0))?;
    let (sender, receiver) = channel::<(Instant, Vec<u8>)>();
    spawn(move || {
        let mut datagram = [0; 2_048];
        loop {
            if let Ok((length, _)) = inward.recv_from(&mut datagram) {
                let _ = sender.send((Instant::now() + delay, datagram[..length].to_vec()));
            }
        }
    });
    spawn(move || {
        for (due, datagram) in receiver {
            wait_until(due);
            let _ = outward.send_to(&datagram, (Ipv4Addr::LOCALHOST, to));
        }
    });
    Ok(())
}

fn main() -> Result<()> {
    let numbers: Vec<u64> = std::env::args().skip(1).filter_map(|word| word.parse().ok()).collect();
    // where it can't be set, sleeps end later
    let _ = std::fs::write("/proc/self/timerslack_ns", SLACK);
    for ports in numbers[1..].chunks_exact(2) {
        pass_on(Duration::from_micros(numbers[0]), ports[0] as u16, ports[1] as u16)?;
    }
    std::io::stdin().read_to_end(&mut Vec::new())?;
    Ok(())
}
