//! `example_dns_query` over `tinyvec`: the DNS query that each line asks for, built in a lent slice.

use std::io;
use tinyvec::SliceVec;

/// The longest message.
const ROOM: usize = 512;

/// Recursion is desired. There is one question, and no record in the three other sections.
const FLAGS_AND_COUNTS: [u8; 10] = [1, 0, 0, 1, 0, 0, 0, 0, 0, 0];

const CLASS_INTERNET: u16 = 1;

const HEADER_LEN: usize = 12;

const TYPE_AND_CLASS_LEN: usize = 4;

/// The first part of a text, and what follows the separator, if there is one.
fn first_part(text: &[u8], separator: u8) -> (&[u8], Option<&[u8]>) {
    match text.iter().position(|byte| *byte == separator) {
        Some(index) => (&text[..index], Some(&text[index + 1..])),
        None => (text, None),
    }
}

fn three_words(line: &[u8]) -> Option<(&[u8], &[u8], &[u8])> {
    let (first, rest) = first_part(line, b' ');
    let (second, rest) = first_part(rest?, b' ');
    let (third, rest) = first_part(rest?, b' ');
    if rest.is_some() {
        None
    } else {
        Some((first, second, third))
    }
}

fn parse_id(word: &[u8]) -> Option<u16> {
    std::str::from_utf8(word).ok()?.parse().ok()
}

/// The number of a type on the wire.
fn parse_type(word: &[u8]) -> Option<u16> {
    match word {
        b"A" => Some(1),
        b"NS" => Some(2),
        b"CNAME" => Some(5),
        b"SOA" => Some(6),
        b"PTR" => Some(12),
        b"MX" => Some(15),
        b"TXT" => Some(16),
        b"AAAA" => Some(28),
        _ => None,
    }
}

/// The text of a name's labels, with a dot between two, or none for the root.
fn body_of(name: &[u8]) -> Option<&[u8]> {
    match name.strip_suffix(b".") {
        Some([]) => None,
        Some(body) => Some(body),
        None => Some(name),
    }
}

/// What is wrong with the first label that has no byte or more than 63.
fn label_fault(body: Option<&[u8]>) -> Option<&'static str> {
    let mut rest = body;
    while let Some(text) = rest {
        let (label, more) = first_part(text, b'.');
        if label.is_empty() {
            return Some("the name has a label with no byte");
        }
        if label.len() > 63 {
            return Some("the name has a label with more than 63 bytes");
        }
        rest = more;
    }
    None
}

/// How many bytes the name has on the wire.
fn name_len(body: Option<&[u8]>) -> usize {
    body.map_or(1, |text| text.len() + 2)
}

fn check_name(name: &[u8]) -> Result<(), &'static str> {
    if !name.iter().all(|byte| (33..=126).contains(byte)) {
        return Err("the name has a byte that is no printed ASCII character");
    }
    let body = body_of(name);
    if let Some(fault) = label_fault(body) {
        return Err(fault);
    }
    if name_len(body) > 255 {
        return Err("the name has more than 255 bytes on the wire");
    }
    Ok(())
}

fn push_query(message: &mut SliceVec<'_, u8>, id: u16, body: Option<&[u8]>, record_type: u16) {
    message.extend_from_slice(&id.to_be_bytes());
    message.extend_from_slice(&FLAGS_AND_COUNTS);
    let mut rest = body;
    while let Some(text) = rest {
        let (label, more) = first_part(text, b'.');
        message.push(label.len() as u8);
        message.extend_from_slice(label);
        rest = more;
    }
    message.push(0);
    message.extend_from_slice(&record_type.to_be_bytes());
    message.extend_from_slice(&CLASS_INTERNET.to_be_bytes());
}

/// Writes the query that a line asks for at the start of the slice, and returns its length.
fn answer_line(slice: &mut [u8], line: &[u8]) -> Result<usize, &'static str> {
    let (number, name, word) =
        three_words(line).ok_or("a line is a number, a name and a type, with one blank between two")?;
    let id = parse_id(number).ok_or("the first word is no number from 0 to 65535")?;
    let record_type = parse_type(word).ok_or("the third word is none of A, NS, CNAME, SOA, PTR, MX, TXT and AAAA")?;
    check_name(name)?;
    let body = body_of(name);
    let len = HEADER_LEN + name_len(body) + TYPE_AND_CLASS_LEN;
    if slice.len() < len {
        return Err("the message does not fit the slice");
    }
    push_query(&mut SliceVec::from_slice_len(slice, 0), id, body, record_type);
    Ok(len)
}

fn hex_digit(number: u8) -> u8 {
    if number < 10 {
        b'0' + number
    } else {
        b'a' - 10 + number
    }
}

fn write_answer(slice: &mut [u8; ROOM], out: &mut Vec<u8>, line: &[u8]) {
    match answer_line(slice, line) {
        Ok(len) => {
            let start = out.len();
            out.resize(start + 2 * len, 0);
            for (pair, byte) in out[start..].chunks_exact_mut(2).zip(&slice[..len]) {
                pair[0] = hex_digit(byte / 16);
                pair[1] = hex_digit(byte % 16);
            }
        }
        Err(fault) => {
            out.extend_from_slice(b"error: ");
            out.extend_from_slice(fault.as_bytes());
        }
    }
    out.push(b'\n');
}

/// Answers each line of standard input on standard output.
pub fn run() -> io::Result<()> {
    let mut slice = [0; ROOM];
    crate::lines::answer_lines(|out, line| write_answer(&mut slice, out, line))
}
