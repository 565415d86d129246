//! One station of the Distributed V Kernel's interprocess communication, in safe Rust: processes Send, Receive and Reply with messages of
//! 32 bytes, and move memory, within the station and to other stations. What a station answers is proved (`crates/vk_host` of the
//! repository); this crate gives its archive the types of a Rust programmer.
//!
//! A [`Station`] has no clock, threads or wires. The program gives it events: a [`Call`] of a process, a collect, a tick, or bytes that
//! came from another station. Each is answered at once, and may leave [`Frame`]s for others, which may be lost, repeated, reordered or
//! late.
//!
//! ```
//! use vk_station::{Answer, Call, Message, Pid, Process, Settings, Station};
//!
//! # fn main() -> Result<(), Box<dyn std::error::Error>> {
//! let (client, server) = (Pid::new(1, 1)?, Pid::new(1, 2)?);
//! let processes = [client, server].map(|pid| Process { pid, size: 0 });
//! let mut station = Station::open(&Settings::default(), &processes, 1)?;
//!
//! station.call(server, &Call::Receive)?;
//! station.call(client, &Call::Send { target: server, message: Message::from_prefix(b"ping") })?;
//! let Answer::Received { from, message } = station.collect(server)? else { panic!("nothing received") };
//! assert_eq!((from, &message.0[..4]), (client, &b"ping"[..]));
//!
//! station.call(server, &Call::Reply { to: from, message: Message::from_prefix(b"pong") })?;
//! assert!(station.is_done(client));
//! assert_eq!(station.collect(client)?, Answer::Replied { message: Message::from_prefix(b"pong") });
//! # Ok(())
//! # }
//! ```
//!
//! All unsafe code is in `src/raw.rs`.
#![deny(unsafe_code, missing_docs)]

mod answer;
mod call;
mod error;
mod frame;
#[allow(unsafe_code)]
mod raw;
mod station;

pub use answer::{Answer, Refusal};
pub use call::{Access, Call, Message, Pid, Scope};
pub use error::Error;
pub use frame::{Destination, Frame, Frames, Steps};
pub use station::{Pool, Process, Settings, Station};

/// Bytes of a frame, at most.
pub const FRAME_BYTES: usize = 1152;
/// Bytes of a [`Call::Store`] or a [`Call::Load`], at most.
pub const DATA_BYTES: usize = 1024;
/// Bytes of a [`Message`].
pub const MESSAGE_BYTES: usize = 32;
