use crate::raw::Raw;
use crate::FRAME_BYTES;
use std::fmt;
use std::iter::FusedIterator;
use std::ops::Deref;

/// Bytes of the text of a step, at most.
const STEP_BYTES: usize = 2200;

/// Whom a frame is for.
#[derive(Clone, Copy, Debug, PartialEq, Eq, Hash)]
pub enum Destination {
    /// The station of this number.
    Station(u16),
    /// All stations but the one that sends it.
    Every,
}

/// A frame that a station sends: its bytes, by [`Deref`], and whom it is for.
#[derive(Clone)]
pub struct Frame {
    to: u16,
    len: usize,
    bytes: [u8; FRAME_BYTES],
}

impl Frame {
    /// Whom it is for.
    pub fn to(&self) -> Destination {
        match self.to {
            u16::MAX => Destination::Every,
            host => Destination::Station(host),
        }
    }

    /// Whether the station of this number is to get it, where another one sends it.
    pub fn is_for(&self, host: u16) -> bool {
        self.to == host || self.to == u16::MAX
    }
}

impl Deref for Frame {
    type Target = [u8];

    fn deref(&self) -> &[u8] {
        &self.bytes[..self.len]
    }
}

impl fmt::Debug for Frame {
    fn fmt(&self, f: &mut fmt::Formatter<'_>) -> fmt::Result {
        f.debug_struct("Frame").field("to", &self.to()).field("bytes", &&**self).finish()
    }
}

/// The frames of a station's last event, in order.
pub struct Frames<'a> {
    pub(crate) raw: &'a Raw,
    pub(crate) at: u32,
    pub(crate) end: u32,
}

impl Iterator for Frames<'_> {
    type Item = Frame;

    fn next(&mut self) -> Option<Frame> {
        let mut frame = Frame { to: 0, len: 0, bytes: [0; FRAME_BYTES] };
        if self.at == self.end || self.raw.frame(self.at, &mut frame.bytes, &mut frame.len, &mut frame.to) != 0 {
            return None;
        }
        self.at += 1;
        Some(frame)
    }

    fn size_hint(&self) -> (usize, Option<usize>) {
        let left = (self.end - self.at) as usize;
        (left, Some(left))
    }
}

impl ExactSizeIterator for Frames<'_> {}

impl FusedIterator for Frames<'_> {}

/// The steps of the one-machine kernel that a station's last event was, as the lines of a trace. It ends early where no memory is to be
/// had.
pub struct Steps<'a> {
    pub(crate) raw: &'a Raw,
    pub(crate) at: u32,
    pub(crate) end: u32,
}

impl Iterator for Steps<'_> {
    type Item = String;

    fn next(&mut self) -> Option<String> {
        let (mut room, mut len) = ([0; STEP_BYTES], 0);
        if self.at == self.end || self.raw.step(self.at, &mut room, &mut len) != 0 {
            return None;
        }
        self.at += 1;
        Some(String::from_utf8_lossy(&room[..len]).into_owned())
    }

    fn size_hint(&self) -> (usize, Option<usize>) {
        (0, Some((self.end - self.at) as usize))
    }
}

impl FusedIterator for Steps<'_> {}
