//! A case is one line of text, and so is its answer. Numbers are decimal, bytes are hexadecimal with
//! `-` for none.
//!
//! | case | answer |
//! |---|---|
//! | `x N M U SENDER VALUE FAULTS TABLE WHOLE FROM LENGTH` | `x REFUSAL FAULTS CLASS TIES MESSAGES WHOLE` |
//! | `v THRESHOLD LIST` | `v REFUSAL WORD TIE` |
//! | `c N M SENDER A B C D LENGTH` | `c REFUSAL CELL` |
//! | `r N M SENDER CELL` | `r REFUSAL A B C D LENGTH` |
//! | `p N M TABLE-LENGTH ROUND` | `p REFUSAL START END` |
//! | `f FILE` | `f OUTPUT` |
//!
//! The row of an exchange is a part of WHOLE, LENGTH bytes from FROM on. The answer has all of WHOLE as
//! it is afterwards, so that a byte written outside the row is seen, and one written on refusal too. In
//! OUTPUT each LF stands as `|`.

use crate::exchange::exchange;
use crate::refusals::{self, Settings};
use crate::routes;
use crate::scenario;
use crate::vote::vote;
use crate::words;
use std::fmt;

#[derive(Clone, Debug)]
pub enum Case {
    Exchange { settings: Settings, table: Vec<u8>, whole: Vec<u8>, from: usize, length: usize },
    Vote { threshold: u64, list: Vec<u8> },
    Cell { n: u32, m: u32, sender: u32, nodes: [u8; 4], length: u32 },
    Route { n: u32, m: u32, sender: u32, cell: u32 },
    Part { n: u32, m: u32, table: usize, round: u32 },
    File { bytes: Vec<u8> },
}

impl fmt::Display for Case {
    fn fmt(&self, f: &mut fmt::Formatter) -> fmt::Result {
        match self {
            Case::Exchange { settings: s, table, whole, from, length } => write!(
                f,
                "x {} {} {} {} {} {} {} {} {from} {length}",
                s.n,
                s.m,
                s.u,
                s.sender,
                s.value,
                s.faults,
                hex(table),
                hex(whole)
            ),
            Case::Vote { threshold, list } => write!(f, "v {threshold} {}", hex(list)),
            Case::Cell { n, m, sender, nodes: [a, b, c, d], length } => {
                write!(f, "c {n} {m} {sender} {a} {b} {c} {d} {length}")
            }
            Case::Route { n, m, sender, cell } => write!(f, "r {n} {m} {sender} {cell}"),
            Case::Part { n, m, table, round } => write!(f, "p {n} {m} {table} {round}"),
            Case::File { bytes } => write!(f, "f {}", hex(bytes)),
        }
    }
}

/// The case that a line writes.
pub fn read(line: &str) -> Case {
    let mut fields = Fields { line, rest: line.split(' ') };
    match fields.text() {
        "x" => Case::Exchange {
            settings: Settings {
                n: fields.number(),
                m: fields.number(),
                u: fields.number(),
                sender: fields.number(),
                value: fields.number(),
                faults: fields.number(),
            },
            table: fields.bytes(),
            whole: fields.bytes(),
            from: fields.number(),
            length: fields.number(),
        },
        "v" => Case::Vote { threshold: fields.number(), list: fields.bytes() },
        "c" => Case::Cell {
            n: fields.number(),
            m: fields.number(),
            sender: fields.number(),
            nodes: [fields.number(), fields.number(), fields.number(), fields.number()],
            length: fields.number(),
        },
        "r" => Case::Route {
            n: fields.number(),
            m: fields.number(),
            sender: fields.number(),
            cell: fields.number(),
        },
        "p" => Case::Part {
            n: fields.number(),
            m: fields.number(),
            table: fields.number(),
            round: fields.number(),
        },
        "f" => Case::File { bytes: fields.bytes() },
        _ => fields.bad(),
    }
}

/// The answer line of a case.
pub fn answer(case: &Case) -> String {
    match case {
        Case::Exchange { settings, table, whole, from, length } => {
            let mut whole = whole.clone();
            let s = exchange(settings, table, &mut whole[*from..*from + *length]);
            format!(
                "x {} {} {} {} {} {}",
                s.refusal,
                s.faults,
                s.fault_class,
                s.ties,
                s.messages,
                hex(&whole)
            )
        }
        Case::Vote { threshold, list } => match refusals::vote(*threshold, list.len()) {
            0 => {
                let ballot = vote(*threshold, &words::of_bytes(list));
                format!("v 0 {} {}", ballot.word, u32::from(ballot.tie))
            }
            refusal => format!("v {refusal} 0 0"),
        },
        Case::Cell { n, m, sender, nodes, length } => {
            match refusals::cell_of_route(*n, *m, *sender, *nodes, *length) {
                0 => {
                    let route = &nodes[..*length as usize];
                    format!("c 0 {}", routes::routes(*n, *m, *sender).cell(route).unwrap())
                }
                refusal => format!("c {refusal} 0"),
            }
        }
        Case::Route { n, m, sender, cell } => match refusals::route_of_cell(*n, *m, *sender, *cell) {
            0 => {
                let routes = routes::routes(*n, *m, *sender);
                let route = routes.route(*cell as usize).unwrap();
                let mut nodes = [0; 4];
                nodes[..route.len()].copy_from_slice(route);
                let [a, b, c, d] = nodes;
                format!("r 0 {a} {b} {c} {d} {}", route.len())
            }
            refusal => format!("r {refusal} 0 0 0 0 0"),
        },
        Case::Part { n, m, table, round } => match refusals::round_part(*n, *m, *table, *round) {
            0 => {
                let (start, end) = routes::routes(*n, *m, 0).round(*round);
                format!("p 0 {} {}", 2 * start, 2 * end)
            }
            refusal => format!("p {refusal} 0 0"),
        },
        Case::File { bytes } => output_line(scenario::play(bytes).as_bytes()),
    }
}

/// The answer line for what a program wrote about a file.
pub fn output_line(output: &[u8]) -> String {
    let mut line = String::from("f ");
    for &byte in output {
        match byte {
            b'\n' => line.push('|'),
            b'0'..=b'9' | b'A'..=b'F' => line.push(char::from(byte)),
            _ => line += &format!("\\x{byte:02x}"),
        }
    }
    line
}

fn hex(bytes: &[u8]) -> String {
    if bytes.is_empty() {
        return String::from("-");
    }
    let digits = b"0123456789abcdef";
    let mut text = String::with_capacity(2 * bytes.len());
    for byte in bytes {
        text.push(char::from(digits[usize::from(byte >> 4)]));
        text.push(char::from(digits[usize::from(byte & 15)]));
    }
    text
}

/// The fields of a case line, taken one after the other.
struct Fields<'a> {
    line: &'a str,
    rest: std::str::Split<'a, char>,
}

impl<'a> Fields<'a> {
    fn bad(&self) -> ! {
        panic!("not a case: {}", self.line.chars().take(200).collect::<String>())
    }

    fn text(&mut self) -> &'a str {
        self.rest.next().unwrap_or_else(|| self.bad())
    }

    fn number<T: std::str::FromStr>(&mut self) -> T {
        self.text().parse().unwrap_or_else(|_| self.bad())
    }

    fn bytes(&mut self) -> Vec<u8> {
        let text = self.text();
        if text == "-" {
            return Vec::new();
        }
        let digits: Option<Vec<u8>> =
            text.chars().map(|digit| digit.to_digit(16).map(|digit| digit as u8)).collect();
        match digits {
            Some(digits) if digits.len() % 2 == 0 => {
                digits.chunks(2).map(|pair| 16 * pair[0] + pair[1]).collect()
            }
            _ => self.bad(),
        }
    }
}
