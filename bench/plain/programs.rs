//! What processes do by themselves: scripts, page servers and page clients.

use std::borrow::Cow;

use crate::text::{put_bytes, put_decimal, put_message, put_pid, Reader};
use crate::values::{Answer, Call, Message, Pid, Places};

pub const PAGE_BYTES: usize = 512;

/// What a process was answered last, as far as programs ask for it.
pub enum Last<'a> {
    Nothing,
    Collected(Answer),
    Loaded(Cow<'a, [u8]>),
}

/// A call that a program makes: its value, the bytes of a Store, and, where it is asked for, its line in a schedule.
pub struct Made {
    pub call: Call,
    pub bytes: Vec<u8>,
    pub line: Vec<u8>,
}

impl Made {
    pub fn new() -> Made {
        Made { call: Call::Exit, bytes: Vec::new(), line: Vec::new() }
    }

    fn store(&mut self, start: u32, bytes: &[u8]) {
        self.call = Call::Store { start };
        self.bytes.clear();
        self.bytes.extend_from_slice(bytes);
    }

    /// Puts the line of a call that a page server or a page client makes.
    fn put_line(&mut self, caller: Pid) {
        let line = &mut self.line;
        line.clear();
        line.extend_from_slice(b"call ");
        put_pid(line, caller);
        match &self.call {
            Call::ReceiveSegment { start, count } => put_numbers(line, b" receivesegment", &[*start, *count]),
            Call::Load { start, count } => put_numbers(line, b" load", &[*start, *count]),
            Call::Store { start } => {
                put_numbers(line, b" store", &[*start]);
                line.push(b' ');
                put_bytes(line, &self.bytes);
            }
            Call::Send { target, message } => {
                line.extend_from_slice(b" send ");
                put_pid(line, *target);
                line.push(b' ');
                put_message(line, message);
            }
            Call::Reply { message, to } => put_reply(line, b" reply ", message, *to),
            Call::ReplySegment { message, to, places } => {
                put_reply(line, b" replysegment ", message, *to);
                put_numbers(line, b"", &[places.dest, places.src, places.count]);
            }
            _ => line.extend_from_slice(b" exit"),
        }
        line.push(b'\n');
    }
}

fn put_numbers(line: &mut Vec<u8>, word: &[u8], numbers: &[u32]) {
    line.extend_from_slice(word);
    for &number in numbers {
        line.push(b' ');
        put_decimal(line, u64::from(number));
    }
}

fn put_reply(line: &mut Vec<u8>, word: &[u8], message: &Message, to: Pid) {
    line.extend_from_slice(word);
    put_message(line, message);
    line.push(b' ');
    put_pid(line, to);
}

pub enum Program {
    Script(Script),
    Server(Server),
    Client(Client),
}

impl Program {
    /// Puts the next call behind this answer. False at the end.
    pub fn next(&mut self, caller: Pid, last: &Last, made: &mut Made) -> bool {
        match self {
            Program::Script(script) => script.next(made),
            Program::Server(server) => server.next(last, made),
            Program::Client(client) => client.next(caller, made),
        }
    }

    /// Puts the next call with its line.
    pub fn next_with_line(&mut self, caller: Pid, last: &Last, made: &mut Made) -> bool {
        let is_made = self.next(caller, last, made);
        // a script has put the line that it was given
        if is_made && !matches!(self, Program::Script(_)) {
            made.put_line(caller);
        }
        is_made
    }
}

/// Calls in order, each as its line in a schedule.
#[derive(Default)]
pub struct Script {
    lines: Vec<Vec<u8>>,
    at: usize,
}

impl Script {
    pub fn is_empty(&self) -> bool {
        self.lines.is_empty()
    }

    pub fn push(&mut self, line: Vec<u8>) {
        self.lines.push(line);
    }

    fn next(&mut self, made: &mut Made) -> bool {
        let Some(line) = self.lines.get(self.at) else { return false };
        self.at += 1;
        made.line.clear();
        made.line.extend_from_slice(line);
        let mut reader = Reader::new(line);
        let call = reader.skip(b"call ").and_then(|()| reader.pid()).and_then(|_| reader.space()).and_then(|()| reader.call());
        made.call = call.unwrap_or(Call::Exit);
        made.bytes = std::mem::take(&mut reader.bytes);
        true
    }
}

enum Serving {
    Receive,
    Receiving,
    Loading { from: Pid, page: u32 },
    Storing { from: Pid, page: u32, dest: u32 },
    Ended,
}

/// A page server: the bytes of its pages, and the replies that are left.
pub struct Server {
    pages: Vec<u8>,
    left: u32,
    serving: Serving,
}

/// The message with these first two bytes and this page.
fn page_message(grants: u8, code: u8, page: u32) -> Message {
    let mut message = Message::ZERO;
    message.0[0] = grants;
    message.0[1] = code;
    message.0[4..8].copy_from_slice(&page.to_be_bytes());
    message
}

impl Server {
    pub fn new(pages: u32, requests: u32) -> Server {
        Server { pages: vec![0; pages as usize * PAGE_BYTES], left: requests, serving: Serving::Receive }
    }

    fn page(&self, page: u32) -> std::ops::Range<usize> {
        page as usize * PAGE_BYTES..(page as usize + 1) * PAGE_BYTES
    }

    fn next(&mut self, last: &Last, made: &mut Made) -> bool {
        match self.serving {
            Serving::Ended => return false,
            Serving::Receive if self.left == 0 => {
                self.serving = Serving::Ended;
                made.call = Call::Exit;
            }
            Serving::Receive => {
                self.serving = Serving::Receiving;
                made.call = Call::ReceiveSegment { start: 0, count: PAGE_BYTES as u32 };
            }
            Serving::Receiving => match last {
                Last::Collected(Answer::ReceivedSegment(from, message, _)) => self.take(*from, message, made),
                _ => {
                    self.serving = Serving::Ended;
                    return false;
                }
            },
            Serving::Loading { from, page } => match last {
                Last::Loaded(bytes) if bytes.len() == PAGE_BYTES => {
                    let range = self.page(page);
                    self.pages[range].copy_from_slice(bytes);
                    self.reply(from, page, 0, made);
                }
                _ => {
                    self.serving = Serving::Ended;
                    return false;
                }
            },
            Serving::Storing { from, page, dest } => {
                self.left -= 1;
                self.serving = Serving::Receive;
                let places = Places { dest, src: 0, count: PAGE_BYTES as u32 };
                made.call = Call::ReplySegment { message: page_message(0, 0, page), to: from, places };
            }
        }
        true
    }

    /// Takes a request.
    fn take(&mut self, from: Pid, message: &Message, made: &mut Made) {
        let (code, page) = (message.0[1], message.word(4));
        let (start, length) = message.segment();
        if code != 1 && code != 2 {
            self.reply(from, page, 2, made);
        } else if page as usize >= self.pages.len() / PAGE_BYTES {
            self.reply(from, page, 1, made);
        } else if code == 1 && message.grants_write() && length as usize >= PAGE_BYTES {
            self.serving = Serving::Storing { from, page, dest: start };
            made.store(0, &self.pages[self.page(page)]);
        } else if code == 2 && message.grants_read() && length as usize == PAGE_BYTES {
            self.serving = Serving::Loading { from, page };
            made.call = Call::Load { start: 0, count: PAGE_BYTES as u32 };
        } else {
            self.reply(from, page, 2, made);
        }
    }

    fn reply(&mut self, to: Pid, page: u32, code: u8, made: &mut Made) {
        self.left -= 1;
        self.serving = Serving::Receive;
        made.call = Call::Reply { message: page_message(0, code, page), to };
    }
}

/// A page client: four calls a round.
pub struct Client {
    server: Pid,
    pages: u32,
    rounds: u32,
    at: u64,
}

impl Client {
    pub fn new(server: Pid, pages: u32, rounds: u32) -> Client {
        Client { server, pages, rounds, at: 0 }
    }

    fn next(&mut self, caller: Pid, made: &mut Made) -> bool {
        let (round, call) = ((self.at / 4) as u32, self.at % 4);
        if round == self.rounds {
            return false;
        }
        self.at += 1;
        let size = PAGE_BYTES as u32;
        let (target, page) = (self.server, round % self.pages);
        match call {
            0 => made.store(0, &[(u64::from(round) + u64::from(caller.host())) as u8; PAGE_BYTES]),
            1 => made.call = Call::Send { target, message: granting(page_message(1, 2, page), 0, size) },
            2 => made.call = Call::Send { target, message: granting(page_message(2, 1, page), size, size) },
            _ => made.call = Call::Load { start: size, count: size },
        }
        true
    }
}

/// The message with this segment.
fn granting(mut message: Message, start: u32, length: u32) -> Message {
    message.0[24..28].copy_from_slice(&start.to_be_bytes());
    message.0[28..32].copy_from_slice(&length.to_be_bytes());
    message
}
