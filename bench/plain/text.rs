//! Reading words and writing them.

use crate::values::{Call, Message, Pid, Places, Scope, DATA_BYTES};

/// The value of a lower-case hexadecimal digit, or 255.
static DIGITS: [u8; 256] = digit_values();

const fn digit_values() -> [u8; 256] {
    let mut values = [255; 256];
    let mut digit = 0;
    while digit < 16 {
        values[b"0123456789abcdef"[digit] as usize] = digit as u8;
        digit += 1;
    }
    values
}

/// The two hexadecimal digits of each byte.
static HEXADECIMAL: [[u8; 2]; 256] = hexadecimal_pairs();

const fn hexadecimal_pairs() -> [[u8; 2]; 256] {
    let digits = b"0123456789abcdef";
    let mut pairs = [[0; 2]; 256];
    let mut byte = 0;
    while byte < 256 {
        pairs[byte] = [digits[byte >> 4], digits[byte & 15]];
        byte += 1;
    }
    pairs
}

/// The two decimal digits of each number below 100.
static DECIMAL: [[u8; 2]; 100] = decimal_pairs();

const fn decimal_pairs() -> [[u8; 2]; 100] {
    let mut pairs = [[0; 2]; 100];
    let mut number = 0;
    while number < 100 {
        pairs[number] = [b'0' + (number / 10) as u8, b'0' + (number % 10) as u8];
        number += 1;
    }
    pairs
}

/// A place in a text whose last line has its line feed. Each reader gives nothing where no such word stands; no reader of a
/// single word goes behind a line feed: `end` and `call` do.
pub struct Reader<'a> {
    text: &'a [u8],
    at: usize,
    /// The bytes of the last Store.
    pub bytes: Vec<u8>,
}

impl<'a> Reader<'a> {
    pub fn new(text: &'a [u8]) -> Reader<'a> {
        Reader { text, at: 0, bytes: Vec::new() }
    }

    pub fn is_at_end(&self) -> bool {
        self.at >= self.text.len()
    }

    pub fn place(&self) -> usize {
        self.at
    }

    pub fn go_back(&mut self, place: usize) {
        self.at = place;
    }

    /// What was read since this place.
    #[inline]
    pub fn since(&self, place: usize) -> &'a [u8] {
        &self.text[place..self.at]
    }

    #[inline(always)]
    fn peek(&self) -> u8 {
        match self.text.get(self.at) {
            Some(&byte) => byte,
            None => b'\n',
        }
    }

    /// Goes behind this front, where it stands next.
    #[inline(always)]
    pub fn skip(&mut self, front: &[u8]) -> Option<()> {
        if self.text.get(self.at..)?.starts_with(front) {
            self.at += front.len();
            Some(())
        } else {
            None
        }
    }

    /// Goes behind this front of the rest, where it stands there.
    #[inline(always)]
    fn skips(&mut self, rest: &[u8], front: &[u8]) -> bool {
        let is_next = rest.starts_with(front);
        if is_next {
            self.at += front.len();
        }
        is_next
    }

    #[inline(always)]
    fn byte(&mut self, byte: u8) -> Option<()> {
        if self.peek() == byte {
            self.at += 1;
            Some(())
        } else {
            None
        }
    }

    #[inline(always)]
    pub fn space(&mut self) -> Option<()> {
        self.byte(b' ')
    }

    #[inline(always)]
    pub fn end(&mut self) -> Option<()> {
        self.byte(b'\n')
    }

    /// A number of at most `most`. A digit behind a first 0, or behind the 19th, is left, and is no end of a word.
    #[inline(always)]
    pub fn number(&mut self, most: u64) -> Option<u64> {
        let rest = self.text.get(self.at..)?;
        let first = rest.first()?.wrapping_sub(b'0');
        if first > 9 {
            return None;
        }
        let mut value = u64::from(first);
        let mut count = 1;
        if first != 0 {
            for byte in &rest[1..] {
                let digit = byte.wrapping_sub(b'0');
                if digit > 9 || count == 19 {
                    break;
                }
                value = value * 10 + u64::from(digit);
                count += 1;
            }
        }
        self.at += count;
        if value <= most {
            Some(value)
        } else {
            None
        }
    }

    /// A number of 64 bits, which may have a twentieth digit.
    pub fn long(&mut self) -> Option<u64> {
        let value = self.number(u64::MAX)?;
        let digit = self.peek().wrapping_sub(b'0');
        if digit > 9 {
            return Some(value);
        }
        self.at += 1;
        value.checked_mul(10).filter(|&value| value > 0)?.checked_add(u64::from(digit))
    }

    #[inline(always)]
    pub fn positive(&mut self, most: u64) -> Option<u64> {
        self.number(most).filter(|&value| value > 0)
    }

    /// The number of a Send, a move or a lookup.
    #[inline]
    pub fn ordinal(&mut self) -> Option<u64> {
        self.positive(i64::MAX as u64)
    }

    #[inline]
    pub fn count(&mut self) -> Option<u32> {
        self.number(u64::from(u32::MAX)).map(|value| value as u32)
    }

    /// A host or a local: 1 to `most`, which has five digits.
    #[inline(always)]
    fn half(&mut self, most: u32) -> Option<u32> {
        let start = self.at;
        let mut value = 0_u32;
        loop {
            let digit = self.peek().wrapping_sub(b'0');
            if digit > 9 {
                break;
            }
            value = value.wrapping_mul(10).wrapping_add(u32::from(digit));
            self.at += 1;
        }
        let is_spelled = self.at - start <= 5 && self.text.get(start) != Some(&b'0');
        if is_spelled && value.wrapping_sub(1) < most {
            Some(value)
        } else {
            None
        }
    }

    #[inline]
    pub fn station(&mut self) -> Option<u16> {
        self.half(65_534).map(|host| host as u16)
    }

    #[inline]
    pub fn pid(&mut self) -> Option<Pid> {
        let host = self.half(65_534)?;
        self.byte(b'.')?;
        let local = self.half(65_535)?;
        Some(Pid(host << 16 | local))
    }

    #[inline]
    pub fn message(&mut self) -> Option<Message> {
        let mut message = Message::ZERO;
        let rest = self.text.get(self.at..)?;
        if rest.first() == Some(&b'-') {
            self.at += 1;
            return Some(message);
        }
        let mut count = 0;
        for (pair, byte) in rest.chunks_exact(2).zip(&mut message.0) {
            let (high, low) = (DIGITS[usize::from(pair[0])], DIGITS[usize::from(pair[1])]);
            if high | low > 15 {
                break;
            }
            *byte = high << 4 | low;
            count += 1;
        }
        self.at += 2 * count;
        if count > 0 && message.0[count - 1] != 0 {
            Some(message)
        } else {
            None
        }
    }

    /// Up to 1,024 bytes, which stand in `bytes` then.
    fn store_bytes(&mut self) -> Option<()> {
        self.bytes.clear();
        if self.peek() == b'-' {
            self.at += 1;
            return Some(());
        }
        // whole blocks, and then byte by byte
        while let Some((digits, _)) = self.text.get(self.at..)?.split_first_chunk() {
            let Some(bytes) = block_of(digits) else { break };
            self.bytes.extend_from_slice(&bytes);
            self.at += digits.len();
        }
        for pair in self.text.get(self.at..)?.chunks_exact(2) {
            let (high, low) = (DIGITS[usize::from(pair[0])], DIGITS[usize::from(pair[1])]);
            if high | low > 15 {
                break;
            }
            self.bytes.push(high << 4 | low);
            self.at += 2;
        }
        if self.bytes.is_empty() || self.bytes.len() > DATA_BYTES as usize {
            None
        } else {
            Some(())
        }
    }

    fn scope(&mut self) -> Option<Scope> {
        let rest = self.text.get(self.at..)?;
        if self.skips(rest, b"local") {
            Some(Scope::Local)
        } else if self.skips(rest, b"remote") {
            Some(Scope::Remote)
        } else if self.skips(rest, b"both") {
            Some(Scope::Both)
        } else {
            None
        }
    }

    fn range(&mut self) -> Option<(u32, u32)> {
        self.space()?;
        let start = self.count()?;
        self.space()?;
        Some((start, self.count()?))
    }

    fn places(&mut self) -> Option<Places> {
        self.space()?;
        let dest = self.count()?;
        self.space()?;
        let src = self.count()?;
        self.space()?;
        Some(Places { dest, src, count: self.count()? })
    }

    /// A call, and the end of its line.
    #[inline(always)]
    pub fn call(&mut self) -> Option<Call> {
        let call = if self.skip(b"send ").is_some() {
            let target = self.pid()?;
            self.space()?;
            Call::Send { target, message: self.message()? }
        } else if self.skip(b"receive\n").is_some() {
            return Some(Call::Receive);
        } else if self.skip(b"reply ").is_some() {
            let message = self.message()?;
            self.space()?;
            Call::Reply { message, to: self.pid()? }
        } else {
            self.other_call()?
        };
        self.end()?;
        Some(call)
    }

    #[inline(never)]
    fn other_call(&mut self) -> Option<Call> {
        let rest = self.text.get(self.at..)?;
        if self.skips(rest, b"receivesegment") {
            let (start, count) = self.range()?;
            Some(Call::ReceiveSegment { start, count })
        } else if self.skips(rest, b"replysegment ") {
            let message = self.message()?;
            self.space()?;
            let to = self.pid()?;
            Some(Call::ReplySegment { message, to, places: self.places()? })
        } else if self.skips(rest, b"forward ") {
            let message = self.message()?;
            self.space()?;
            let from = self.pid()?;
            self.space()?;
            Some(Call::Forward { message, from, to: self.pid()? })
        } else if self.skips(rest, b"moveto ") {
            let partner = self.pid()?;
            Some(Call::MoveTo { partner, places: self.places()? })
        } else if self.skips(rest, b"movefrom ") {
            let partner = self.pid()?;
            Some(Call::MoveFrom { partner, places: self.places()? })
        } else if self.skips(rest, b"setpid ") {
            let logical = self.count()?;
            self.space()?;
            let pid = self.pid()?;
            self.space()?;
            Some(Call::SetPid { logical, pid, scope: self.scope()? })
        } else if self.skips(rest, b"getpid ") {
            let logical = self.count()?;
            self.space()?;
            Some(Call::GetPid { logical, scope: self.scope()? })
        } else if self.skips(rest, b"load") {
            let (start, count) = self.range()?;
            Some(Call::Load { start, count })
        } else if self.skips(rest, b"store ") {
            let start = self.count()?;
            self.space()?;
            self.store_bytes()?;
            Some(Call::Store { start })
        } else if self.skips(rest, b"exit") {
            Some(Call::Exit)
        } else {
            None
        }
    }
}

#[inline(always)]
pub fn put_decimal(text: &mut Vec<u8>, value: u64) {
    if value < 10 {
        text.push(b'0' + value as u8);
    } else if value < 100_000_000 {
        put_digits(text, value as u32);
    } else {
        put_long(text, value);
    }
}

/// A number of two to eight digits.
#[inline(never)]
fn put_digits(text: &mut Vec<u8>, value: u32) {
    let pair = |value: u32| DECIMAL[value as usize % 100];
    if value < 100 {
        text.extend_from_slice(&pair(value));
    } else if value < 10_000 {
        let (high, low) = (value / 100, value % 100);
        let ([thousands, hundreds], [tens, units]) = (pair(high), pair(low));
        if high < 10 {
            text.extend_from_slice(&[hundreds, tens, units]);
        } else {
            text.extend_from_slice(&[thousands, hundreds, tens, units]);
        }
    } else {
        let (front, rest) = (value / 10_000, value % 10_000);
        let ([thousands, hundreds], [tens, units]) = (pair(rest / 100), pair(rest % 100));
        if front < 10 {
            text.extend_from_slice(&[b'0' + front as u8, thousands, hundreds, tens, units]);
        } else {
            put_decimal(text, u64::from(front));
            text.extend_from_slice(&[thousands, hundreds, tens, units]);
        }
    }
}

#[inline(never)]
fn put_long(text: &mut Vec<u8>, value: u64) {
    put_decimal(text, value / 10_000);
    let rest = (value % 10_000) as usize;
    text.extend_from_slice(&[DECIMAL[rest / 100], DECIMAL[rest % 100]].concat());
}

#[inline(always)]
pub fn put_pid(text: &mut Vec<u8>, pid: Pid) {
    put_decimal(text, u64::from(pid.host()));
    text.push(b'.');
    put_decimal(text, u64::from(pid.local()));
}

/// The 32 bytes of 64 digits, where all are digits. The loops are such as the compiler makes 16 bytes at once of.
fn block_of(digits: &[u8; 64]) -> Option<[u8; 32]> {
    let mut values = [0; 64];
    let mut all = 0;
    for (value, &digit) in values.iter_mut().zip(digits) {
        let (number, letter) = (digit.wrapping_sub(b'0'), digit.wrapping_sub(b'a'));
        *value = if number < 10 {
            number
        } else if letter < 6 {
            letter + 10
        } else {
            255
        };
        all |= *value;
    }
    let mut bytes = [0; 32];
    for (byte, pair) in bytes.iter_mut().zip(values.as_chunks::<2>().0) {
        *byte = pair[0] << 4 | pair[1];
    }
    if all < 16 {
        Some(bytes)
    } else {
        None
    }
}

/// The digits of so many bytes.
fn digits_of(bytes: &[u8; 32]) -> [[u8; 2]; 32] {
    let digit = |value: u8| if value < 10 { b'0' + value } else { b'a' - 10 + value };
    let mut digits = [[0; 2]; 32];
    for (pair, &byte) in digits.iter_mut().zip(bytes) {
        *pair = [digit(byte >> 4), digit(byte & 15)];
    }
    digits
}

pub fn put_bytes(text: &mut Vec<u8>, bytes: &[u8]) {
    if bytes.is_empty() {
        text.push(b'-');
    }
    let (blocks, rest) = bytes.as_chunks::<32>();
    for block in blocks {
        text.extend_from_slice(digits_of(block).as_flattened());
    }
    put_short(text, rest);
}

/// The digits of at most 32 bytes.
#[inline]
fn put_short(text: &mut Vec<u8>, bytes: &[u8]) {
    let mut digits = [[0; 2]; 32];
    for (pair, &byte) in digits.iter_mut().zip(bytes) {
        *pair = HEXADECIMAL[usize::from(byte)];
    }
    text.extend_from_slice(&digits.as_flattened()[..2 * bytes.len().min(32)]);
}

/// A message without the zeros at its end.
#[inline]
pub fn put_message(text: &mut Vec<u8>, message: &Message) {
    match message.filled() {
        0 => text.push(b'-'),
        filled => put_short(text, &message.0[..filled]),
    }
}
