//! Scenario files, and what the program for one exchange writes about one.

use crate::exchange::exchange;
use crate::refusals::Settings;
use crate::routes::{self, Routes};
use crate::words;
use std::collections::BTreeMap;
use std::rc::Rc;

const LF: u8 = b'\n';

/// A refused file: the number, and the line counted from 1 (0 for 26).
struct Refused {
    number: u32,
    line: usize,
}

/// The whole output for one scenario file.
pub fn play(input: &[u8]) -> String {
    match read(input) {
        Ok(scenario) => scenario.output(),
        Err(refused) => format!("1F{:02X}{:04X}\n", refused.number, refused.line),
    }
}

fn read(input: &[u8]) -> Result<Scenario, Refused> {
    let mut lines: Vec<&[u8]> = input.split(|&byte| byte == LF).collect();
    let unfinished = lines.pop().unwrap();
    let mut reader = Reader { scenario: None, ended: false };
    for (index, line) in lines.iter().enumerate() {
        if let Err(number) = reader.line(line) {
            return Err(Refused { number, line: index + 1 });
        }
    }
    match reader.scenario {
        Some(scenario) if reader.ended && unfinished.is_empty() => Ok(scenario),
        _ => Err(Refused { number: 26, line: 0 }),
    }
}

/// What stands in the lines so far.
struct Reader {
    scenario: Option<Scenario>,
    ended: bool,
}

struct Scenario {
    settings: Settings,
    routes: Rc<Routes>,
    given: BTreeMap<usize, u16>,
}

impl Reader {
    /// Takes one complete line, or gives its refusal.
    fn line(&mut self, line: &[u8]) -> Result<(), u32> {
        let frame = frame(line).ok_or(20u32)?;
        match (frame[0], &mut self.scenario) {
            _ if self.ended => Err(21),
            (0x01, None) => {
                self.scenario = Some(first(&frame)?);
                Ok(())
            }
            (0x02, Some(scenario)) => scenario.message(&frame),
            (0x03, Some(scenario)) => {
                scenario.last(&frame)?;
                self.ended = true;
                Ok(())
            }
            _ => Err(21),
        }
    }
}

/// The bytes of a line, if it is 2, 4 .. or 18 upper-case hexadecimal digits.
fn frame(line: &[u8]) -> Option<Vec<u8>> {
    if line.is_empty() || line.len() % 2 == 1 || line.len() > 18 {
        return None;
    }
    let digits: Option<Vec<u8>> = line.iter().map(|&byte| digit(byte)).collect();
    Some(digits?.chunks(2).map(|pair| 16 * pair[0] + pair[1]).collect())
}

fn digit(byte: u8) -> Option<u8> {
    b"0123456789ABCDEF".iter().position(|&known| known == byte).map(|place| place as u8)
}

fn word(bytes: &[u8]) -> u16 {
    u16::from_be_bytes([bytes[0], bytes[1]])
}

/// An `01` line.
fn first(frame: &[u8]) -> Result<Scenario, u32> {
    if frame.len() != 9 {
        return Err(22);
    }
    let settings = Settings {
        n: u32::from(frame[1]),
        m: u32::from(frame[2]),
        u: u32::from(frame[3]),
        sender: u32::from(frame[4]),
        value: word(&frame[5..7]),
        faults: word(&frame[7..9]),
    };
    match settings.refusal() {
        0 => {
            let routes = routes::routes(settings.n, settings.m, settings.sender);
            Ok(Scenario { settings, routes, given: BTreeMap::new() })
        }
        number => Err(number),
    }
}

impl Scenario {
    /// An `02` line.
    fn message(&mut self, frame: &[u8]) -> Result<(), u32> {
        if frame.len() < 2 || frame.len() != 4 + usize::from(frame[1]) {
            return Err(22);
        }
        let (nodes, told) = frame[2..].split_at(usize::from(frame[1]));
        let cell = self.routes.cell(nodes).ok_or(23u32)?;
        if self.given.contains_key(&cell) {
            return Err(24);
        }
        self.given.insert(cell, word(told));
        Ok(())
    }

    /// An `03` line.
    fn last(&self, frame: &[u8]) -> Result<(), u32> {
        if frame.len() != 3 {
            return Err(22);
        }
        if usize::from(word(&frame[1..3])) != self.given.len() {
            return Err(25);
        }
        Ok(())
    }

    fn output(&self) -> String {
        let mut table = vec![0u16; self.routes.messages()];
        for (&cell, &word) in &self.given {
            table[cell] = word;
        }
        let mut row = vec![0u8; 2 * self.settings.n as usize];
        let summary = exchange(&self.settings, &words::to_bytes(&table), &mut row);
        let mut output = String::new();
        for (node, slot) in words::of_bytes(&row).into_iter().enumerate() {
            let role = if self.settings.faults >> node & 1 == 1 {
                2
            } else if node as u32 == self.settings.sender {
                0
            } else {
                1
            };
            output += &format!("11{node:02X}{role:02X}{slot:04X}\n");
        }
        output += &format!(
            "12{:02X}{:02X}{:04X}{:04X}\n",
            summary.faults, summary.fault_class, summary.ties, summary.messages
        );
        output
    }
}
