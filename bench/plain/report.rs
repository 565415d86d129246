//! What is told of events: the report, or the trace of the steps.

use crate::text::{put_bytes, put_decimal, put_message, put_pid};
use crate::values::{Answer, Pid};
use crate::wire::{Header, EVERY_STATION};

pub struct Report {
    pub text: Vec<u8>,
    is_trace: bool,
    /// Where the `H:E` of the event stands in the text.
    place: std::ops::Range<usize>,
    events: u64,
    steps: u64,
    frames: u64,
}

/// Hears what events tell, as it is told.
pub trait Listener {
    /// Whether frames are found by the events that emitted them, so that stations keep which these are.
    const FINDS_FRAMES: bool;

    /// An event of this station begins, which is so manyth of its own.
    fn begin(&mut self, host: u16, own: u64);
    /// An answer that is this line.
    fn answer_line(&mut self, line: &[u8]);
    fn answer(&mut self, answer: &Answer);
    fn answer_loaded(&mut self, bytes: &[u8]);
    fn answer_tick(&mut self, now: u64);
    /// A step whose words are this line of the schedule: a text has one spelling.
    fn step_line(&mut self, line: &[u8]);
    /// A step of a process, behind this word.
    fn step_of(&mut self, word: &[u8], pid: Pid);
    /// A step of a process and these last words.
    fn step_ending(&mut self, word: &[u8], pid: Pid, ending: &[u8]);
    /// A step of a process and these numbers.
    fn step_numbers(&mut self, word: &[u8], pid: Pid, numbers: &[u64]);
    fn step_hear(&mut self, asker: Pid, lookup: u64, pid: Pid);
    fn step_found(&mut self, asker: Pid, pid: Pid);
    /// A frame of this kind, which stands between its spaces, and of this length.
    fn frame(&mut self, header: &Header, kind: &[u8], length: usize);
}

impl Report {
    pub fn new(is_trace: bool) -> Report {
        let title: &[u8] = if is_trace { b"vkernel trace 1\n" } else { b"vkernel report 1\n" };
        Report { text: title.to_vec(), is_trace, place: 0..0, events: 0, steps: 0, frames: 0 }
    }

    pub fn missing(&mut self, host: u16) {
        self.events += 1;
        if !self.is_trace {
            put_decimal(&mut self.text, self.events);
            self.text.push(b' ');
            put_decimal(&mut self.text, u64::from(host));
            self.text.extend_from_slice(b":- missing\n");
        }
    }

    #[inline(always)]
    fn step(&mut self, words: &[u8]) {
        self.steps += 1;
        if !self.is_trace {
            self.text.extend_from_slice(b"step ");
        }
        self.text.extend_from_slice(words);
    }

    /// `end EVENTS STEPS FRAMES`
    pub fn end(&mut self) {
        if !self.is_trace {
            self.text.extend_from_slice(b"end");
            for count in [self.events, self.steps, self.frames] {
                self.text.push(b' ');
                put_decimal(&mut self.text, count);
            }
            self.text.push(b'\n');
        }
    }
}

impl Listener for Report {
    const FINDS_FRAMES: bool = true;

    /// `N H:E `
    #[inline]
    fn begin(&mut self, host: u16, own: u64) {
        self.events += 1;
        if !self.is_trace {
            put_decimal(&mut self.text, self.events);
            self.text.push(b' ');
            let start = self.text.len();
            put_decimal(&mut self.text, u64::from(host));
            self.text.push(b':');
            put_decimal(&mut self.text, own);
            self.place = start..self.text.len();
            self.text.push(b' ');
        }
    }

    #[inline(always)]
    fn answer_line(&mut self, line: &[u8]) {
        if !self.is_trace {
            self.text.extend_from_slice(line);
        }
    }

    fn answer(&mut self, answer: &Answer) {
        if self.is_trace {
            return;
        }
        let text = &mut self.text;
        match answer {
            Answer::Ok => text.extend_from_slice(b"ok"),
            Answer::Replied(message) => {
                text.extend_from_slice(b"ok ");
                put_message(text, message);
            }
            Answer::Received(from, message) => {
                text.extend_from_slice(b"ok ");
                put_pid(text, *from);
                text.push(b' ');
                put_message(text, message);
            }
            Answer::ReceivedSegment(from, message, count) => {
                text.extend_from_slice(b"ok ");
                put_pid(text, *from);
                text.push(b' ');
                put_message(text, message);
                text.push(b' ');
                put_decimal(text, u64::from(*count));
            }
            Answer::Found(pid) => {
                text.extend_from_slice(b"ok ");
                put_pid(text, *pid);
            }
            Answer::Refused(why) => text.extend_from_slice(why.as_bytes()),
        }
        text.push(b'\n');
    }

    fn answer_loaded(&mut self, bytes: &[u8]) {
        if !self.is_trace {
            self.text.extend_from_slice(b"ok ");
            put_bytes(&mut self.text, bytes);
            self.text.push(b'\n');
        }
    }

    fn answer_tick(&mut self, now: u64) {
        if !self.is_trace {
            self.text.extend_from_slice(b"now ");
            put_decimal(&mut self.text, now);
            self.text.push(b'\n');
        }
    }

    #[inline(always)]
    fn step_line(&mut self, line: &[u8]) {
        self.step(line);
    }

    #[inline(always)]
    fn step_of(&mut self, word: &[u8], pid: Pid) {
        self.step(word);
        put_pid(&mut self.text, pid);
        self.text.push(b'\n');
    }

    #[inline(always)]
    fn step_ending(&mut self, word: &[u8], pid: Pid, ending: &[u8]) {
        self.step(word);
        put_pid(&mut self.text, pid);
        self.text.extend_from_slice(ending);
    }

    #[inline(always)]
    fn step_numbers(&mut self, word: &[u8], pid: Pid, numbers: &[u64]) {
        self.step(word);
        put_pid(&mut self.text, pid);
        for &number in numbers {
            self.text.push(b' ');
            put_decimal(&mut self.text, number);
        }
        self.text.push(b'\n');
    }

    fn step_hear(&mut self, asker: Pid, lookup: u64, pid: Pid) {
        self.step(b"hear ");
        put_pid(&mut self.text, asker);
        self.text.push(b' ');
        put_decimal(&mut self.text, lookup);
        self.text.push(b' ');
        put_pid(&mut self.text, pid);
        self.text.push(b'\n');
    }

    fn step_found(&mut self, asker: Pid, pid: Pid) {
        self.step(b"found ");
        put_pid(&mut self.text, asker);
        self.text.push(b' ');
        put_pid(&mut self.text, pid);
        self.text.push(b'\n');
    }

    /// `frame H:E.O DEST KIND LENGTH`, where the kind stands between its spaces.
    #[inline(always)]
    fn frame(&mut self, header: &Header, kind: &[u8], length: usize) {
        self.frames += 1;
        if self.is_trace {
            return;
        }
        self.text.extend_from_slice(b"frame ");
        self.text.extend_from_within(self.place.clone());
        self.text.push(b'.');
        put_decimal(&mut self.text, u64::from(header.output));
        self.text.push(b' ');
        if header.destination == EVERY_STATION {
            self.text.extend_from_slice(b"all");
        } else {
            put_decimal(&mut self.text, u64::from(header.destination));
        }
        self.text.extend_from_slice(kind);
        put_decimal(&mut self.text, length as u64);
        self.text.push(b'\n');
    }
}
