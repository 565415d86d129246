//! `network client COUNT OWN THERE STEP..`, `network server COUNT OWN THERE STEP..`, `network pipe COUNT OWN WRITER READER`: the datagrams of
//! so many operations between ports of this machine, by blocking sockets. A step is `>81`, the client sends 81 bytes, or `<1093x64`, the server
//! sends 1,093 bytes 64 times. Of a datagram only this is told: where a frame has its kind and the number of its Send stand the step,
//! counted from 1, and the operation. Nothing is sent again: who waits for ten seconds ends with a fault.

use std::collections::VecDeque;
use std::io::{Error, Result};
use std::net::{Ipv4Addr, UdpSocket};
use std::time::Duration;

const PATIENCE: Duration = Duration::from_secs(10);
const KIND: usize = 32;
const NUMBER: usize = 41;
const FRAME: usize = 1_152;
/// In a pipe: the bytes of a piece, which a datagram has at its end; the answers to a write and to a read; the pieces that have room.
const BYTES: usize = 512;
const WRITTEN: usize = 87;
const READ: usize = 599;
const ROOM: usize = 4;

struct Step {
    is_clients: bool,
    length: usize,
    times: usize,
}

fn step(word: &str) -> Option<Step> {
    let (length, times) = word[1..].split_once('x').unwrap_or((&word[1..], "1"));
    Some(Step { is_clients: word.starts_with('>'), length: length.parse().ok()?, times: times.parse().ok()? })
}

/// Sends in the steps of this side and receives in the others, so many times.
fn play(socket: &UdpSocket, there: u16, is_client: bool, count: u64, steps: &[Step]) -> Result<()> {
    let mut datagram = [0; FRAME];
    let mut came = [0; FRAME];
    for number in 1..=count {
        datagram[NUMBER..NUMBER + 8].copy_from_slice(&number.to_be_bytes());
        for (place, step) in steps.iter().enumerate() {
            datagram[KIND] = place as u8 + 1;
            for _ in 0..step.times {
                if step.is_clients == is_client {
                    socket.send_to(&datagram[..step.length], (Ipv4Addr::LOCALHOST, there))?;
                } else {
                    socket.recv_from(&mut came)?;
                }
            }
        }
    }
    Ok(())
}

/// Hands on what one peer writes to the other, which reads it, so many pieces. Who asks too early waits for its answer.
fn pipe(socket: &UdpSocket, writer: u16, reader: u16, count: u64) -> Result<()> {
    let mut came = [0; FRAME];
    let mut answer = [0; FRAME];
    let mut pieces = VecDeque::new();
    let (mut written, mut is_read) = (None, false);
    let mut left = count;
    while left > 0 {
        let (length, from) = socket.recv_from(&mut came)?;
        if from.port() == writer {
            written = <[u8; BYTES]>::try_from(&came[length - BYTES..length]).ok();
        } else {
            is_read = true;
        }
        loop {
            if written.is_some() && pieces.len() < ROOM {
                pieces.extend(written.take());
                socket.send_to(&answer[..WRITTEN], (Ipv4Addr::LOCALHOST, writer))?;
            } else if let (true, Some(&piece)) = (is_read, pieces.front()) {
                pieces.pop_front();
                answer[READ - BYTES..READ].copy_from_slice(&piece);
                socket.send_to(&answer[..READ], (Ipv4Addr::LOCALHOST, reader))?;
                (is_read, left) = (false, left - 1);
            } else {
                break;
            }
        }
    }
    Ok(())
}

fn main() -> Result<()> {
    let words: Vec<String> = std::env::args().skip(1).collect();
    let number = |place: usize| words.get(place).and_then(|word| word.parse().ok()).ok_or(Error::other("a number is wanted"));
    let port = |place: usize| number(place).map(|port| port as u16);
    let socket = UdpSocket::bind((Ipv4Addr::LOCALHOST, port(2)?))?;
    socket.set_read_timeout(Some(PATIENCE))?;
    if words[0] == "pipe" {
        return pipe(&socket, port(3)?, port(4)?, number(1)?);
    }
    let steps: Option<Vec<Step>> = words[4..].iter().map(|word| step(word)).collect();
    play(&socket, port(3)?, words[0] == "client", number(1)?, &steps.ok_or(Error::other("a step is wanted"))?)
}
