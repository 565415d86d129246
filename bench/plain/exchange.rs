//! What became of a Send, and its remote moves.

use std::collections::VecDeque;

use crate::values::{Message, Pid, Places};

/// No exchange, or no process.
pub const NONE: u32 = u32::MAX;

#[derive(PartialEq, Eq, Clone, Copy)]
pub enum Stage {
    Posted,
    Queued,
    Taken,
    Replied,
    Dropped,
}

/// A remote move of an exchange.
pub struct Move {
    pub is_from: bool,
    pub places: Places,
    /// Its bytes, where they stand no longer in the memory from which they are moved.
    pub noted: Option<Vec<u8>>,
}

/// What became of a Send. It is kept as long as it is the last of its sender, or neither replied to nor dropped and its target in the
/// configuration, or a process is blocked in a move of it.
pub struct Exchange {
    pub sender: u32,
    pub number: u64,
    pub target: Pid,
    pub message: Message,
    pub part: Vec<u8>,
    /// The place of the process in whose queue it waits or that took it last, and the message that this one is shown: the target, where that
    /// is in the configuration, and the message of the Send, until a Forward.
    pub at: u32,
    pub shown: Message,
    pub stage: Stage,
    pub reply: Message,
    pub reply_dest: u32,
    pub reply_bytes: Vec<u8>,
    pub opened: u64,
    pub done: u32,
    /// The remote moves that were begun; of these the last are kept, those before the open one are not.
    pub begun: u64,
    pub moves: VecDeque<Move>,
    /// Who is blocked in a move of it.
    pub mover: u32,
    /// Who is behind it in a queue.
    pub next: u32,
    /// The posted exchanges of this sender to the same station, before it and behind it.
    pub older: u32,
    pub newer: u32,
}

impl Exchange {
    /// One of this sender that never was.
    pub fn none_of(sender: u32) -> Exchange {
        Exchange {
            sender,
            number: 0,
            target: Pid(0),
            message: Message::ZERO,
            part: Vec::new(),
            at: NONE,
            shown: Message::ZERO,
            stage: Stage::Dropped,
            reply: Message::ZERO,
            reply_dest: 0,
            reply_bytes: Vec::new(),
            opened: 0,
            done: 0,
            begun: 0,
            moves: VecDeque::new(),
            mover: NONE,
            next: NONE,
            older: NONE,
            newer: NONE,
        }
    }

    /// A move that is kept, by its number.
    pub fn move_of(&self, moving: u64) -> Option<&Move> {
        let behind = self.begun.checked_sub(moving)? as usize;
        if behind < self.moves.len() {
            self.moves.get(self.moves.len() - 1 - behind)
        } else {
            None
        }
    }

    pub fn move_of_mut(&mut self, moving: u64) -> Option<&mut Move> {
        let behind = self.begun.checked_sub(moving)? as usize;
        let kept = self.moves.len();
        if behind < kept {
            self.moves.get_mut(kept - 1 - behind)
        } else {
            None
        }
    }
}
