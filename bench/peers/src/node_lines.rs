//! `example_nodes` over `tinyvec`: numbers and lists, a line each, counted and printed anew, and of sums the numbers. Its lines of
//! squares are left out.

use std::fmt::Write;
use std::io;
use std::mem;
use tinyvec::TinyVec;

/// So many lists may be open.
const MOST_OPEN: usize = 128;

enum Node {
    Number(u64),
    List(Box<Nodes>),
}

type Nodes = TinyVec<[Node; 2]>;

impl Default for Node {
    fn default() -> Node {
        Node::Number(0)
    }
}

/// What is wrong, and in which column.
type Wrong = (usize, &'static str);

/// A line that was read in part: what precedes each open bracket, and what follows the last.
#[derive(Default)]
struct Parser {
    outer: Vec<Nodes>,
    nodes: Nodes,
    number: Option<u64>,
}

impl Parser {
    fn step(&mut self, byte: u8, column: usize) -> Result<(), Wrong> {
        if byte.is_ascii_digit() {
            let longer = self.number.unwrap_or(0).checked_mul(10).and_then(|it| it.checked_add(u64::from(byte - b'0')));
            self.number = Some(longer.ok_or((column, "the number is too large"))?);
            return Ok(());
        }
        self.end_number();
        match byte {
            b' ' => {}
            b'(' if self.outer.len() >= MOST_OPEN => return Err((column, "too many lists are open")),
            b'(' => self.outer.push(mem::take(&mut self.nodes)),
            b')' => {
                let before = self.outer.pop().ok_or((column, "no list is open"))?;
                let items = mem::replace(&mut self.nodes, before);
                self.nodes.push(Node::List(Box::new(items)));
            }
            _ => return Err((column, "this byte has no meaning")),
        }
        Ok(())
    }

    fn end_number(&mut self) {
        if let Some(number) = self.number.take() {
            self.nodes.push(Node::Number(number));
        }
    }
}

fn parse(line: &[u8]) -> Result<Nodes, Wrong> {
    let mut parser = Parser::default();
    for (index, byte) in line.iter().enumerate() {
        parser.step(*byte, index + 1)?;
    }
    parser.end_number();
    if parser.outer.is_empty() {
        Ok(parser.nodes)
    } else {
        Err((line.len() + 1, "a list is not closed"))
    }
}

/// A line that ends with a plus is a sum, of which only the numbers are left.
fn parse_nodes(line: &[u8]) -> Result<Nodes, Wrong> {
    let Some(sum) = line.strip_suffix(b"+") else {
        return parse(line);
    };
    let nodes = parse(sum)?;
    if nodes.iter().all(|it| matches!(it, Node::Number(_))) {
        return Ok(nodes);
    }
    let mut flat = Nodes::new();
    flatten(nodes, &mut flat);
    Ok(flat)
}

fn flatten(nodes: Nodes, flat: &mut Nodes) {
    for node in nodes {
        match node {
            Node::Number(_) => flat.push(node),
            Node::List(items) => flatten(*items, flat),
        }
    }
}

fn count(nodes: &[Node]) -> usize {
    let counts = nodes.iter().map(|it| match it {
        Node::Number(_) => 1,
        Node::List(items) => 1 + count(items),
    });
    counts.sum()
}

fn push_nodes(text: &mut String, nodes: &[Node]) {
    for (index, node) in nodes.iter().enumerate() {
        if index > 0 {
            text.push(' ');
        }
        match node {
            Node::Number(number) => push_number(text, *number),
            Node::List(items) => {
                text.push('(');
                push_nodes(text, items);
                text.push(')');
            }
        }
    }
}

fn push_number(text: &mut String, number: impl std::fmt::Display) {
    // A `String` takes any text.
    let _ = write!(text, "{number}");
}

fn push_answer(text: &mut String, number: u64, line: &[u8]) {
    match parse_nodes(line) {
        Ok(nodes) => {
            push_number(text, count(&nodes));
            text.push_str(": ");
            push_nodes(text, &nodes);
        }
        Err((column, fault)) => {
            let _ = write!(text, "line {number}, column {column}: {fault}");
        }
    }
    text.push('\n');
}

/// Answers each line of standard input on standard output.
pub fn run() -> io::Result<()> {
    let (mut number, mut text) = (0, String::new());
    crate::lines::answer_lines(|answers, line| {
        number += 1;
        text.clear();
        push_answer(&mut text, number, line);
        answers.extend_from_slice(text.as_bytes());
    })
}
