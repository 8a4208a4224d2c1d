//! The script of `tv` over `tinyvec`: the calls of its vectors, without splices and texts.

use crate::unbuffered;
use std::io::{self, Read, Write};
use tinyvec::{ArrayVec, SliceVec, TinyVec};

const CAPACITY: usize = 4;

/// Longer lines are no command.
const LINE_LIMIT: usize = 128;

/// How many bytes are read at a time.
const CHUNK: usize = 4096;

enum Call {
    Push(i32),
    Pop,
    Insert(usize, i32),
    Remove(usize),
    SwapRemove(usize),
    Truncate(usize),
    Drain(usize, usize),
    SetLen(usize),
    Reserve(usize),
    Heap,
    Shrink,
}

enum Answer {
    Done,
    Some(i32),
    None,
    Items(Vec<i32>),
    Full,
    Range,
}

/// Makes a call that all three vectors have. `$is_reset` if a truncated vector shows the slots that it leaves: they are zero.
macro_rules! answer {
    ($vector:ident, $call:ident, $is_full:expr, $is_reset:expr) => {
        match $call {
            Call::Push(_) if $is_full => Answer::Full,
            Call::Push(x) => {
                $vector.push(x);
                Answer::Done
            }
            Call::Pop => $vector.pop().map_or(Answer::None, Answer::Some),
            Call::Insert(i, _) if i > $vector.len() => Answer::Range,
            Call::Insert(..) if $is_full => Answer::Full,
            Call::Insert(i, x) => {
                $vector.insert(i, x);
                Answer::Done
            }
            Call::Remove(i) | Call::SwapRemove(i) if i >= $vector.len() => Answer::Range,
            Call::Remove(i) => Answer::Some($vector.remove(i)),
            Call::SwapRemove(i) => Answer::Some($vector.swap_remove(i)),
            Call::Truncate(n) => {
                if $is_reset && n < $vector.len() {
                    $vector[n..].fill(0);
                }
                $vector.truncate(n);
                Answer::Done
            }
            Call::Drain(start, end) if start > end || end > $vector.len() => Answer::Range,
            Call::Drain(start, end) => Answer::Items($vector.drain(start..end).collect()),
            Call::SetLen(_) | Call::Reserve(_) | Call::Heap | Call::Shrink => unreachable!(),
        }
    };
}

fn answer_array(vector: &mut ArrayVec<[i32; CAPACITY]>, call: Call) -> Answer {
    match call {
        Call::SetLen(n) if n > CAPACITY => Answer::Range,
        Call::SetLen(n) => {
            vector.set_len(n);
            Answer::Done
        }
        _ => answer!(vector, call, vector.len() == CAPACITY, true),
    }
}

fn answer_slice(vector: &mut SliceVec<'_, i32>, call: Call) -> Answer {
    match call {
        Call::SetLen(n) if n > CAPACITY => Answer::Range,
        Call::SetLen(n) => {
            vector.set_len(n);
            Answer::Done
        }
        _ => answer!(vector, call, vector.len() == CAPACITY, true),
    }
}

fn answer_tiny(vector: &mut TinyVec<[i32; CAPACITY]>, call: Call) -> Answer {
    match call {
        Call::Reserve(n) => {
            vector.reserve(n);
            Answer::Done
        }
        Call::Heap => {
            vector.move_to_the_heap();
            Answer::Done
        }
        Call::Shrink => {
            vector.shrink_to_fit();
            Answer::Done
        }
        _ => answer!(vector, call, false, false),
    }
}

fn split_at_byte(text: &[u8], byte: u8) -> Option<(&[u8], &[u8])> {
    let index = text.iter().position(|it| *it == byte)?;
    Some((&text[..index], &text[index + 1..]))
}

/// The index, in the one form that it is printed in.
fn parse_index(text: &[u8]) -> Option<usize> {
    if text.is_empty() || text.len() > 1 && text[0] == b'0' {
        return None;
    }
    let mut value: usize = 0;
    for byte in text {
        if !byte.is_ascii_digit() {
            return None;
        }
        value = value.checked_mul(10)?.checked_add(usize::from(byte - b'0'))?;
    }
    Some(value)
}

/// The number, in the one form that it is printed in.
fn parse_number(text: &[u8]) -> Option<i32> {
    match text.strip_prefix(b"-") {
        None => i32::try_from(parse_index(text)?).ok(),
        Some(digits) => {
            let size = parse_index(digits)?;
            if size == 0 || size > 1 << 31 {
                None
            } else {
                Some(-(size as i64) as i32)
            }
        }
    }
}

fn parse_call(text: &[u8]) -> Option<Call> {
    if text == b"pop" {
        return Some(Call::Pop);
    }
    let (name, rest) = split_at_byte(text, b' ')?;
    match name {
        b"push" => Some(Call::Push(parse_number(rest)?)),
        b"insert" => {
            let (index, number) = split_at_byte(rest, b' ')?;
            Some(Call::Insert(parse_index(index)?, parse_number(number)?))
        }
        b"remove" => Some(Call::Remove(parse_index(rest)?)),
        b"swap" => Some(Call::SwapRemove(parse_index(rest)?)),
        b"truncate" => Some(Call::Truncate(parse_index(rest)?)),
        b"drain" => {
            let (start, end) = split_at_byte(rest, b' ')?;
            Some(Call::Drain(parse_index(start)?, parse_index(end)?))
        }
        _ => None,
    }
}

fn parse_slots_call(text: &[u8]) -> Option<Call> {
    match text.strip_prefix(b"setlen ") {
        Some(index) => Some(Call::SetLen(parse_index(index)?)),
        None => parse_call(text),
    }
}

fn parse_tiny_call(text: &[u8]) -> Option<Call> {
    match text {
        b"heap" => Some(Call::Heap),
        b"shrink" => Some(Call::Shrink),
        _ => match text.strip_prefix(b"reserve ") {
            Some(index) => Some(Call::Reserve(parse_index(index)?)),
            None => parse_call(text),
        },
    }
}

fn write_number(output: &mut Vec<u8>, number: i32) {
    if number >= 0 {
        write_decimal(output, number as u32);
        return;
    }
    output.push(b'-');
    write_decimal(output, number.unsigned_abs());
}

// Four digits at a time.
fn write_decimal(output: &mut Vec<u8>, number: u32) {
    if number < 10000 {
        write_up_to_four(output, number);
        return;
    }
    write_up_to_eight(output, number / 10000);
    write_four(output, number % 10000);
}

#[inline(always)]
fn write_up_to_eight(output: &mut Vec<u8>, number: u32) {
    if number < 10000 {
        write_up_to_four(output, number);
        return;
    }
    write_up_to_four(output, number / 10000);
    write_four(output, number % 10000);
}

#[inline(always)]
fn write_up_to_four(output: &mut Vec<u8>, number: u32) {
    if number < 10 {
        output.push(b'0' + number as u8);
        return;
    }
    if number < 100 {
        write_pair(output, number);
        return;
    }
    if number < 1000 {
        output.push(b'0' + (number / 100) as u8);
        write_pair(output, number % 100);
        return;
    }
    write_four(output, number);
}

#[inline(always)]
fn write_pair(output: &mut Vec<u8>, pair: u32) {
    output.extend_from_slice(&[b'0' + (pair / 10) as u8, b'0' + (pair % 10) as u8]);
}

#[inline(always)]
fn write_four(output: &mut Vec<u8>, four: u32) {
    let front = four / 100;
    let back = four % 100;
    output.extend_from_slice(&[
        b'0' + (front / 10) as u8,
        b'0' + (front % 10) as u8,
        b'0' + (back / 10) as u8,
        b'0' + (back % 10) as u8,
    ]);
}

fn write_list(output: &mut Vec<u8>, numbers: &[i32]) {
    output.push(b'[');
    for (index, number) in numbers.iter().enumerate() {
        if index > 0 {
            output.extend_from_slice(b", ");
        }
        write_number(output, *number);
    }
    output.push(b']');
}

fn write_answer(output: &mut Vec<u8>, answer: &Answer) {
    match answer {
        Answer::Done => output.extend_from_slice(b"ok"),
        Answer::Some(number) => {
            output.extend_from_slice(b"some ");
            write_number(output, *number);
        }
        Answer::None => output.extend_from_slice(b"none"),
        Answer::Items(numbers) => {
            output.extend_from_slice(b"items ");
            write_list(output, numbers);
        }
        Answer::Full => output.extend_from_slice(b"full"),
        Answer::Range => output.extend_from_slice(b"range"),
    }
    output.push(b' ');
}

fn write_state(output: &mut Vec<u8>, items: &[i32], spare: &[i32]) {
    write_list(output, items);
    output.push(b' ');
    write_list(output, spare);
    output.push(b'\n');
}

/// The bytes of a line so far, unless there are too many for a command.
struct Line {
    bytes: ArrayVec<[u8; LINE_LIMIT]>,
    is_long: bool,
}

impl Line {
    fn extend(&mut self, piece: &[u8]) {
        if piece.len() > LINE_LIMIT - self.bytes.len() {
            self.is_long = true;
        } else {
            self.bytes.extend_from_slice(piece);
        }
    }

    fn clear(&mut self) {
        self.bytes.clear();
        self.is_long = false;
    }
}

struct Vectors<'s> {
    a: ArrayVec<[i32; CAPACITY]>,
    s: SliceVec<'s, i32>,
    t: TinyVec<[i32; CAPACITY]>,
}

impl Vectors<'_> {
    /// Writes the answer to a line.
    fn answer_line(&mut self, line: &Line, output: &mut Vec<u8>) {
        if line.is_long || self.answer(&line.bytes, output).is_none() {
            output.extend_from_slice(b"bad\n");
        }
    }

    /// Writes the answer to a command, and nothing if the text is none.
    fn answer(&mut self, text: &[u8], output: &mut Vec<u8>) -> Option<()> {
        let (name, text) = split_at_byte(text, b' ')?;
        match name {
            b"A" => {
                write_answer(output, &answer_array(&mut self.a, parse_slots_call(text)?));
                write_state(output, &self.a, self.a.grab_spare_slice());
            }
            b"S" => {
                write_answer(output, &answer_slice(&mut self.s, parse_slots_call(text)?));
                write_state(output, &self.s, self.s.grab_spare_slice());
            }
            b"T" => {
                write_answer(output, &answer_tiny(&mut self.t, parse_tiny_call(text)?));
                write_list(output, &self.t);
                output.extend_from_slice(if self.t.is_inline() { b" inline\n" } else { b" heap\n" });
            }
            _ => return None,
        }
        Some(())
    }
}

/// Answers the script on standard input, a line each, on standard output.
pub fn run() -> io::Result<()> {
    let (mut reader, mut writer) = (unbuffered::stdin()?, unbuffered::stdout()?);
    let mut slots = [0; CAPACITY];
    let mut vectors = Vectors { a: ArrayVec::new(), s: SliceVec::from_slice_len(&mut slots, 0), t: TinyVec::new() };
    let mut line = Line { bytes: ArrayVec::new(), is_long: false };
    let mut output = Vec::new();
    let mut chunk = [0; CHUNK];
    loop {
        let count = reader.read(&mut chunk)?;
        if count == 0 {
            if line.is_long || !line.bytes.is_empty() {
                vectors.answer_line(&line, &mut output);
            }
            return writer.write_all(&output);
        }
        let mut rest = &chunk[..count];
        while let Some((front, after)) = split_at_byte(rest, b'\n') {
            line.extend(front);
            vectors.answer_line(&line, &mut output);
            line.clear();
            rest = after;
        }
        line.extend(rest);
        writer.write_all(&output)?;
        output.clear();
    }
}
