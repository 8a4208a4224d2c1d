//! `example_records` over `tinyvec`: a stream of records in the Borsh form, changed and read by a command a line.

use std::fmt::Write;
use std::io;
use tinyvec::{ArrayVec, TinyVec};

/// The byte before each record.
const TAG: u8 = b'R';

/// The tag, the station and two counts.
const FIXED_BYTES: u64 = 21;

struct Reading {
    station: u32,
    samples: ArrayVec<[u16; 8]>,
    note: TinyVec<[u8; 16]>,
}

/// The records that were read, and why no more were.
struct Recovered {
    records: Vec<Reading>,
    end: Option<&'static str>,
}

/// Takes so many bytes off the front.
fn take<'b, const N: usize>(bytes: &mut &'b [u8]) -> Option<&'b [u8; N]> {
    let (front, rest) = bytes.split_first_chunk()?;
    *bytes = rest;
    Some(front)
}

const CUT: &str = "the stream is cut within a record";

fn read_record(bytes: &mut &[u8]) -> Result<Reading, &'static str> {
    let station = u32::from_le_bytes(*take(bytes).ok_or(CUT)?);
    let count = u64::from_le_bytes(*take(bytes).ok_or(CUT)?);
    let mut samples = ArrayVec::new();
    for _ in 0..count {
        let sample = u16::from_le_bytes(*take(bytes).ok_or(CUT)?);
        if samples.try_push(sample).is_some() {
            return Err("a record has more than eight samples");
        }
    }
    let len = u64::from_le_bytes(*take(bytes).ok_or(CUT)?);
    if len > bytes.len() as u64 {
        return Err(CUT);
    }
    let (note, rest) = bytes.split_at(len as usize);
    *bytes = rest;
    Ok(Reading { station, samples, note: TinyVec::from(note) })
}

fn read_all(mut bytes: &[u8]) -> Recovered {
    let mut records = Vec::new();
    while let Some((tag, rest)) = bytes.split_first() {
        if *tag != TAG {
            return Recovered { records, end: Some("no record begins here") };
        }
        bytes = rest;
        match read_record(&mut bytes) {
            Ok(reading) => records.push(reading),
            Err(end) => return Recovered { records, end: Some(end) },
        }
    }
    Recovered { records, end: None }
}

fn append(stream: &mut Vec<u8>, reading: &Reading) {
    stream.push(TAG);
    stream.extend_from_slice(&reading.station.to_le_bytes());
    stream.extend_from_slice(&(reading.samples.len() as u64).to_le_bytes());
    for sample in &reading.samples {
        stream.extend_from_slice(&sample.to_le_bytes());
    }
    stream.extend_from_slice(&(reading.note.len() as u64).to_le_bytes());
    stream.extend_from_slice(&reading.note);
}

fn stream_len(records: &[Reading]) -> u64 {
    records.iter().map(|it| FIXED_BYTES + 2 * it.samples.len() as u64 + it.note.len() as u64).sum()
}

fn first_word(text: &str) -> (&str, &str) {
    text.split_once(' ').unwrap_or((text, ""))
}

fn parse_samples(text: &str) -> Option<ArrayVec<[u16; 8]>> {
    let mut samples = ArrayVec::new();
    if text == "-" {
        return Some(samples);
    }
    for part in text.split(',') {
        if samples.try_push(part.parse().ok()?).is_some() {
            return None;
        }
    }
    Some(samples)
}

fn parse_reading(text: &str) -> Result<Reading, &'static str> {
    let (station, rest) = first_word(text);
    let (samples, note) = first_word(rest);
    let station = station.parse().map_err(|_| "no station")?;
    let samples = parse_samples(samples).ok_or("no list of up to eight samples")?;
    Ok(Reading { station, samples, note: TinyVec::from(note.as_bytes()) })
}

fn hex_value(digit: u8) -> Option<u8> {
    match digit {
        b'0'..=b'9' => Some(digit - b'0'),
        b'A'..=b'F' => Some(digit - b'A' + 10),
        b'a'..=b'f' => Some(digit - b'a' + 10),
        _ => None,
    }
}

/// Appends bytes, or none if the text has not two digits for each.
fn append_hex(stream: &mut Vec<u8>, text: &[u8]) -> Option<()> {
    let len = stream.len();
    let pairs = text.chunks(2).map(|it| Some(hex_value(it[0])? * 16 + hex_value(*it.get(1)?)?));
    for byte in pairs {
        let Some(byte) = byte else {
            stream.truncate(len);
            return None;
        };
        stream.push(byte);
    }
    Some(())
}

/// Carries out the command. Answers what was read, if it reads.
fn run_command(stream: &mut Vec<u8>, line: &[u8]) -> Result<Option<Recovered>, &'static str> {
    let text = std::str::from_utf8(line).map_err(|_| "no text in UTF-8")?;
    let (word, rest) = first_word(text);
    match word {
        "add" => append(stream, &parse_reading(rest)?),
        "hex" => append_hex(stream, rest.as_bytes()).ok_or("no bytes in hex")?,
        "cut" => {
            let len = rest.parse().ok().filter(|it| *it <= stream.len());
            stream.truncate(len.ok_or("no length within the stream")?);
        }
        "read" | "copy" if !rest.is_empty() => return Err("no words stand behind read and copy"),
        "read" => return Ok(Some(read_all(stream))),
        "copy" => {
            let mut copy = Vec::with_capacity(stream.len());
            for reading in &read_all(stream).records {
                append(&mut copy, reading);
            }
            return Ok(Some(read_all(&copy)));
        }
        _ => return Err("no command: add, hex, cut, read and copy are"),
    }
    Ok(None)
}

fn push_records(text: &mut String, recovered: &Recovered) {
    for Reading { station, samples, note } in &recovered.records {
        // A `String` takes any text.
        let _ = match std::str::from_utf8(note) {
            Ok(note) => writeln!(text, "{station} {samples:?} {note:?}"),
            Err(_) => writeln!(text, "{station} {samples:?} {note:?}"),
        };
    }
    let _ = write!(text, "end after {} bytes", stream_len(&recovered.records));
    if let Some(end) = recovered.end {
        text.push_str(": ");
        text.push_str(end);
    }
    text.push('\n');
}

/// Answers each line of standard input on standard output.
pub fn run() -> io::Result<()> {
    let (mut stream, mut text) = (Vec::new(), String::new());
    crate::lines::answer_lines(|answers, line| {
        text.clear();
        match run_command(&mut stream, line) {
            Ok(Some(recovered)) => push_records(&mut text, &recovered),
            Ok(None) => {
                let unit = if stream.len() == 1 { "byte" } else { "bytes" };
                let _ = writeln!(text, "{} {unit}", stream.len());
            }
            Err(reason) => {
                let _ = writeln!(text, "refused: {reason}");
            }
        }
        answers.extend_from_slice(text.as_bytes());
    })
}
