//! `example_tidy` in plain Rust: the words of each line in lower case, without those that repeat the one before.

use std::io;

/// The first word, and the text after it.
fn next_word(text: &[u8]) -> Option<(&[u8], &[u8])> {
    let start = text.iter().position(|byte| !byte.is_ascii_whitespace())?;
    let text = &text[start..];
    match text.iter().position(|byte| byte.is_ascii_whitespace()) {
        Some(end) => Some((&text[..end], &text[end + 1..])),
        None => Some((text, &[])),
    }
}

fn push_words(line: &[u8], output: &mut Vec<u8>) {
    let Some((first, rest)) = next_word(line) else {
        return;
    };
    output.extend_from_slice(first);
    let (mut last, mut left) = (first, rest);
    while let Some((word, more)) = next_word(left) {
        if word != last {
            output.push(b' ');
            output.extend_from_slice(word);
            last = word;
        }
        left = more;
    }
}

/// Writes the normal form of each line of standard input to standard output.
pub fn run() -> io::Result<()> {
    let mut low = Vec::new();
    crate::lines::answer_lines(|output, line| {
        low.clear();
        low.extend(line.iter().map(u8::to_ascii_lowercase));
        push_words(&low, output);
        output.push(b'\n');
    })
}
