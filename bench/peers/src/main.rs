//! The benchmarks of `crates/tinyvec_bench` over the crates that users would pick instead, and programs: five most of which
//! are over `tinyvec`, and two over each crate that grows. The first argument is `tinyvec`, `smallvec`, `arrayvec` or `vec`, or
//! the name of a program, after which `graph` and `editor` have that of the crate. After `rows ROUNDS` the benchmarks print their
//! checksums. A program reads standard input and writes standard output.

mod calls;
mod counts;
mod dns_query;
mod form;
mod graph;
mod items;
mod lines;
mod looks;
mod node_lines;
mod records;
mod report;
mod rows;
mod texts;
mod tidy;
mod tv;
mod unbuffered;
mod vector;

use crate::counts::{answer_edits, answer_graphs};
use smallvec::SmallVec;
use std::env;
use std::io;
use std::process::ExitCode;
use tinyvec::TinyVec;

fn program(name: &str, over: Option<&str>) -> Option<fn() -> io::Result<()>> {
    match (name, over) {
        ("tv", None) => Some(tv::run),
        ("example_tidy", None) => Some(tidy::run),
        ("example_dns_query", None) => Some(dns_query::run),
        ("example_nodes", None) => Some(node_lines::run),
        ("example_records", None) => Some(records::run),
        ("graph", Some("tinyvec")) => Some(answer_graphs::<TinyVec<[u32; 4]>>),
        ("graph", Some("smallvec")) => Some(answer_graphs::<SmallVec<[u32; 4]>>),
        ("graph", Some("vec")) => Some(answer_graphs::<Vec<u32>>),
        ("editor", Some("tinyvec")) => Some(answer_edits::<TinyVec<[u64; 4]>>),
        ("editor", Some("smallvec")) => Some(answer_edits::<SmallVec<[u64; 4]>>),
        ("editor", Some("vec")) => Some(answer_edits::<Vec<u64>>),
        _ => None,
    }
}

fn main() -> ExitCode {
    let args: Vec<String> = env::args().skip(1).collect();
    let word = |i: usize| args.get(i).map(String::as_str);
    if let Some(program) = word(0).and_then(|it| program(it, word(1))) {
        return if program().is_ok() { ExitCode::SUCCESS } else { ExitCode::FAILURE };
    }
    let rounds = match word(2).map(str::parse) {
        Some(Ok(rounds)) => rounds,
        _ => return ExitCode::FAILURE,
    };
    if rows::rows_of(word(0), rounds) { ExitCode::SUCCESS } else { ExitCode::FAILURE }
}
