//! Texts in std's `String`, and a date in any text.

use crate::items::look_at;
use crate::looks::of_looks;
use crate::report::Report;
use std::hint::black_box;

/// The rows of a text of `n` letters.
pub fn of_text(report: &Report, n: usize) {
    let source = "abcdefghijklmnopqrstuvwxyzABCDEFGHIJKLMNOPQRSTUVWXYZ0123456789-_".repeat(n.div_ceil(64));
    let letters = &source[..n];
    let (mut text, mut other) = (letters.to_owned(), letters.to_owned());
    report.row("refill", n, |_| refill(&mut text, letters));
    report.row("push_and_pop", n, |_| push_and_pop(&mut text));
    report.row("insert_str", n, |_| insert_str(&mut text));
    report.row("replace_range", n, |_| replace_range(&mut text));
    report.row("retain_half", n, |_| retain_half(&mut text, letters));
    report.row("split_off", n, |_| split_off(&mut text, letters));
    report.row("clone", n, |x| cloned(&text, x));
    report.row("as_str", n, |x| as_str(&text, x));
    report.row("push", n, |x| push(&mut other, letters, x));
    report.row("push_str", n, |x| push_str(&mut other, letters, x));
    of_looks(report, n, &text, &other);
}

/// A date that is printed piece by piece.
pub fn of_dates<L: Letters>(report: &Report) {
    let mut made = L::default();
    report.row("text_mail_date", 64, |x| mail_date(&mut made, x));
}

#[inline(never)]
fn push_str(made: &mut String, letters: &str, x: u64) -> u64 {
    *made = String::new();
    made.push_str(letters);
    look_at(made.as_bytes(), x)
}

#[inline(never)]
fn push(made: &mut String, letters: &str, x: u64) -> u64 {
    *made = String::new();
    for letter in letters.chars() {
        made.push(letter);
    }
    look_at(made.as_bytes(), x)
}

#[inline(never)]
fn refill(text: &mut String, letters: &str) -> u64 {
    text.clear();
    text.push_str(letters);
    text.len() as u64
}

#[inline(never)]
fn push_and_pop(text: &mut String) -> u64 {
    text.push('€');
    text.pop().map_or(0, u64::from)
}

#[inline(never)]
fn insert_str(text: &mut String) -> u64 {
    let len = text.len();
    text.insert_str(0, "abcdef");
    text.truncate(len);
    len as u64
}

#[inline(never)]
fn replace_range(text: &mut String) -> u64 {
    text.replace_range(0..3, "stuvwxyz");
    text.replace_range(0..8, "abc");
    text.len() as u64
}

#[inline(never)]
fn retain_half(text: &mut String, letters: &str) -> u64 {
    text.retain(|letter| letter as u32 % 2 == 1);
    let kept = text.len() as u64;
    refill(text, letters);
    kept
}

#[inline(never)]
fn split_off(text: &mut String, letters: &str) -> u64 {
    let tail = text.split_off(text.len() / 2);
    black_box(&tail);
    refill(text, letters);
    tail.len() as u64
}

#[inline(never)]
#[allow(clippy::ptr_arg)]
fn cloned(text: &String, x: u64) -> u64 {
    let made = text.clone();
    // Else LLVM makes no text at all.
    black_box(&made);
    look_at(made.as_bytes(), x)
}

#[inline(never)]
#[allow(clippy::ptr_arg)]
fn as_str(text: &String, x: u64) -> u64 {
    look_at(text.as_str().as_bytes(), x)
}

/// A text that is made.
pub trait Letters: Default {
    fn push(&mut self, letter: char);
    fn push_str(&mut self, letters: &str);
    fn as_bytes(&self) -> &[u8];
}

macro_rules! letters {
    ($text:ty) => {
        impl Letters for $text {
            fn push(&mut self, letter: char) {
                self.push(letter);
            }

            fn push_str(&mut self, letters: &str) {
                self.push_str(letters);
            }

            fn as_bytes(&self) -> &[u8] {
                self.as_str().as_bytes()
            }
        }
    };
}

letters!(String);
letters!(arrayvec::ArrayString<64>);

/// A vector of bytes, which takes ASCII.
macro_rules! ascii {
    ($vector:ty) => {
        impl Letters for $vector {
            fn push(&mut self, letter: char) {
                self.push(letter as u8);
            }

            fn push_str(&mut self, letters: &str) {
                self.extend_from_slice(letters.as_bytes());
            }

            fn as_bytes(&self) -> &[u8] {
                self.as_slice()
            }
        }
    };
}

ascii!(tinyvec::TinyVec<[u8; 64]>);
ascii!(smallvec::SmallVec<[u8; 64]>);

#[inline(never)]
fn mail_date<L: Letters>(made: &mut L, x: u64) -> u64 {
    *made = L::default();
    push_mail_date(made, (x % 8) as u8);
    look_at(made.as_bytes(), x)
}

// Not inlined, as a printer that has several callers.
#[inline(never)]
fn push_mail_date<L: Letters>(made: &mut L, n: u8) {
    made.push_str("Sat, ");
    push_two(made, n);
    made.push_str(" Jul ");
    push_two(made, 20);
    push_two(made, n);
    made.push(' ');
    push_two(made, n);
    made.push(':');
    push_two(made, n);
    made.push(':');
    push_two(made, n);
    made.push_str(" +0000");
}

// The last two digits of `n`.
fn push_two<L: Letters>(made: &mut L, n: u8) {
    made.push((b'0' + n / 10 % 10) as char);
    made.push((b'0' + n % 10) as char);
}
