//! Lines answered one after another: each is read where it is in the block, and all answers to a block go into one buffer.

use crate::unbuffered::{stdin, stdout};
use std::io::{self, Read, Write};

/// How many bytes of lines are read at a time.
const CHUNK: usize = 4096;

/// Has each line of standard input answered on standard output. What is written goes out before more is read.
pub fn answer_lines(mut answer: impl FnMut(&mut Vec<u8>, &[u8])) -> io::Result<()> {
    let (mut reader, mut writer) = (stdin()?, stdout()?);
    // A line that the last block did not end.
    let mut line = Vec::new();
    let mut answers = Vec::with_capacity(4 * CHUNK);
    let mut chunk = [0; CHUNK];
    loop {
        let count = reader.read(&mut chunk)?;
        if count == 0 {
            if !line.is_empty() {
                answer(&mut answers, without_return(&line));
            }
            return writer.write_all(&answers);
        }
        let mut rest = &chunk[..count];
        while let Some(end) = rest.iter().position(|byte| *byte == b'\n') {
            if line.is_empty() {
                answer(&mut answers, without_return(&rest[..end]));
            } else {
                line.extend_from_slice(&rest[..end]);
                answer(&mut answers, without_return(&line));
                line.clear();
            }
            rest = &rest[end + 1..];
        }
        line.extend_from_slice(rest);
        writer.write_all(&answers)?;
        answers.clear();
    }
}

fn without_return(line: &[u8]) -> &[u8] {
    line.strip_suffix(b"\r").unwrap_or(line)
}
