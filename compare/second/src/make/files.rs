//! Scenario files, good and damaged.

use super::{accepted_settings, some_settings};
use crate::cases::Case;
use crate::random::Random;
use crate::routes;
use crate::words;

/// A file while it is being made: its lines without their LF, and what follows the last LF.
#[derive(Clone)]
struct File {
    lines: Vec<Vec<u8>>,
    tail: Vec<u8>,
    settings: Settings,
}

/// The bytes of an `01` line as numbers.
#[derive(Clone)]
struct Settings {
    n: u8,
    m: u8,
    u: u8,
    sender: u8,
    value: u16,
    faults: u16,
}

impl File {
    fn bytes(&self) -> Vec<u8> {
        let mut bytes = Vec::new();
        for line in &self.lines {
            bytes.extend(line);
            bytes.push(b'\n');
        }
        bytes.extend(&self.tail);
        bytes
    }

    fn case(&self) -> Case {
        Case::File { bytes: self.bytes() }
    }

    /// Some line's place.
    fn place(&self, random: &mut Random) -> usize {
        random.below(self.lines.len())
    }

    /// The places of the `02` lines.
    fn messages(&self) -> Vec<usize> {
        (0..self.lines.len()).filter(|&place| self.lines[place].starts_with(b"02")).collect()
    }

    /// Puts the right count into the last line.
    fn recount(&mut self) {
        let count = self.messages().len() as u16;
        if let Some(last) = self.lines.last_mut() {
            *last = end(count);
        }
    }
}

/// A line of digits.
fn digits(bytes: &[u8]) -> Vec<u8> {
    bytes.iter().flat_map(|byte| format!("{byte:02X}").into_bytes()).collect()
}

fn begin(s: &Settings) -> Vec<u8> {
    let mut frame = vec![0x01, s.n, s.m, s.u, s.sender];
    frame.extend(words::to_bytes(&[s.value, s.faults]));
    digits(&frame)
}

fn message(nodes: &[u8], word: u16) -> Vec<u8> {
    let mut frame = vec![0x02, nodes.len() as u8];
    frame.extend(nodes);
    frame.extend(word.to_be_bytes());
    digits(&frame)
}

fn end(count: u16) -> Vec<u8> {
    let mut frame = vec![0x03];
    frame.extend(count.to_be_bytes());
    digits(&frame)
}

/// The sample of the paper.
const SAMPLE: &[u8] = b"010501020000070018\n020203010009\n020204010009\n020204020007\n030003\n";

pub fn fixed(random: &mut Random) -> Vec<Case> {
    let mut cases = vec![Case::File { bytes: SAMPLE.to_vec() }];
    // The sample cut off after each byte.
    for length in 0..SAMPLE.len() {
        cases.push(Case::File { bytes: SAMPLE[..length].to_vec() });
    }
    for text in SMALL {
        cases.push(Case::File { bytes: text.to_vec() });
    }
    for (n, m, u) in accepted_settings() {
        if u == m || n == 2 * m + u + 1 {
            cases.push(good(random, (n, m, u), 12).case());
        }
    }
    for kind in 0..DAMAGES {
        for _ in 0..3 {
            let mut file = some_good(random);
            damage(random, &mut file, kind);
            cases.push(file.case());
        }
    }
    // Every cell given.
    for setting in [(4, 1, 1), (7, 2, 2), (10, 3, 3), (15, 3, 8)] {
        let mut file = good(random, setting, usize::MAX);
        cases.push(file.case());
        // One more line cannot be right.
        let again = file.lines[1].clone();
        let place = file.lines.len() - 1;
        file.lines.insert(place, again);
        cases.push(file.case());
    }
    cases
}

pub fn any(random: &mut Random) -> Case {
    let mut file = some_good(random);
    for _ in 0..random.pick(&[0, 1, 1, 1, 2, 2, 3]) {
        let kind = random.below(DAMAGES);
        damage(random, &mut file, kind);
    }
    file.case()
}

/// Small files that need no dice.
const SMALL: &[&[u8]] = &[
    b"",
    b"\n",
    b"\n\n",
    b"0",
    b"0\n",
    b"00\n",
    b"01\n",
    b"02\n",
    b"03\n",
    b"04\n",
    b"\0",
    b"\0\n",
    b"\r\n",
    b" \n",
    b"010401010000070000",
    b"010401010000070000\n",
    b"010401010000070000\n030000",
    b"010401010000070000\n030000\n",
    b"010401010000070000\n030000\n\n",
    b"010401010000070000\n030000\n0",
    b"010401010000070000\n030000\n\r",
    b"010401010000070000\n030000\n\0",
    b"010401010000070000\n030000\n00",
    b"010401010000070000\n030000\n030000\n",
    b"010401010000070000\n030000\n030000",
    b"010401010000070000\n030000\n020101000A\n",
    b"010401010000070000\n030001\n020101000A\n",
    b"010401010000070000\n030000\n010401010000070000\n",
    b"010401010000070000\n030000\nzz\n",
    b"010401010000070000\n030000\n0000000000000000000\n",
    b"010401010000070000\n030000\n0000000000000000000",
    b"010401010000070000\n030000\n00000000000000000000\n",
    b"010401010000070000\n030000\n00000000000000000000",
    b"010401010000070000\n000000000000000000\n",
    b"010401010000070000\n0000000000000000000\n",
    b"010401010000070000\n0000000000000000000",
    b"010401010000070000\n00000000000000000000",
    b"010401010000070000\nzz",
    b"010401010000070000\r\n030000\r\n",
    b"010401010000070000\n030000\r\n",
    b"010401010000070000 030000\n",
    b"010401010000070000030000\n",
    b"010401010000070000\n02\n",
    b"010401010000070000\n0200\n",
    b"010401010000070000\n0201\n",
    b"010401010000070000\n02000007\n",
    b"010401010000070000\n0201010007\n030001\n",
    b"010401010000070000\n0201000007\n030001\n",
    b"010401010000070000\n0201040007\n030001\n",
    b"010401010000070000\n020201010007\n030001\n",
    b"010401010000070000\n02030102030007\n030001\n",
    b"010401010000070000\n0204010203000007\n",
    b"010401010000070000\n020501020300000007\n",
    b"010401010000070000\n020601020300000000\n",
    b"010401010000070000\n02FF01020300000007\n",
    b"010401010000070000\n0201010007\n0201010007\n030002\n",
    b"010401010000070000\n0201010007\n0201010008\n030001\n",
    b"010401010000070000\n0201010007\n0201010007\n",
    b"010401010000070000\n0201010007\n030000\n",
    b"010401010000070000\n0201010007\n030100\n",
    b"010401010000070000\n0201010007\n03000001\n",
    b"010401010000070000\n0201010007\n0301\n",
    b"0104010100000700\n030000\n",
    b"01040101000007000000\n030000\n",
    b"0104010100000700000\n030000\n",
    b"010401010000070000\n010401010000070000\n030000\n",
    b"030000\n",
    b"0201010007\n030001\n",
    b"0304010100000700000\n",
    b"010401010000070000\n03000a\n",
    b"01040101000007000g\n030000\n",
    b"000401010000070000\n030000\n",
    b"0104010100000700 0\n030000\n",
    b"\xEF\xBB\xBF010401010000070000\n030000\n",
    b"0104010100FDE80000\n030000\n",
    b"0104010100FDE90000\n030000\n",
    b"0104010100FFFF0001\n030000\n",
    b"0104010100FDE80010\n030000\n",
    b"010401010000078000\n030000\n",
    b"0104010100FDE90010\n030000\n",
    b"0104010104FDE90010\n030000\n",
    b"0104010204FDE90010\n030000\n",
    b"0104020104FDE90010\n030000\n",
    b"0104020100FDE90010\n030000\n",
    b"010400010000070000\n030000\n",
    b"010404010000070000\n030000\n",
    b"011000010000070000\n030000\n",
    b"010300010000070000\n030000\n",
    b"010701040000070000\n030000\n",
    b"010702020000070000\n030000\n",
    b"010702030000070000\n030000\n",
    b"010702010000070000\n030000\n",
    b"010F03080000070000\n030000\n",
    b"010F03090000070000\n030000\n",
    b"010F01FF0000070000\n030000\n",
    b"010F010C0E00077FFF\n030000\n",
    b"010F010C0E0007FFFF\n030000\n",
];

/// A good file with at most so many `02` lines.
fn good(random: &mut Random, (n, m, u): (u32, u32, u32), most: usize) -> File {
    let sender = random.below(n as usize) as u32;
    let routes = routes::routes(n, m, sender);
    let value = random.pick(&[0, 1, 5, 7, 7, 7, 65_000]);
    let faults = (0..random.below(u as usize + 2)).fold(0, |set, _| set | 1u16 << random.below(n as usize));
    let settings = Settings { n: n as u8, m: m as u8, u: u as u8, sender: sender as u8, value, faults };
    let mut cells: Vec<usize> = (0..routes.messages()).collect();
    random.shuffle(&mut cells);
    // Lines about faulty tellers first: those are the ones that a decision hangs on.
    if most < cells.len() && random.chance(3, 4) {
        cells.sort_by_key(|&cell| {
            let route = routes.route(cell).unwrap();
            let teller = if route.len() == 1 { sender as u8 } else { route[route.len() - 2] };
            faults >> teller & 1 == 0
        });
    }
    let count = if most > cells.len() { cells.len() } else { random.between(0, most) };
    let other = random.pick(&[0, 9, 9, 65_000, 65_001, 65_535]);
    let mut lines = vec![begin(&settings)];
    for &cell in &cells[..count] {
        let word = match random.below(8) {
            0 => random.word(),
            1..=4 => other,
            _ => value,
        };
        lines.push(message(routes.route(cell).unwrap(), word));
    }
    lines.push(end(count as u16));
    File { lines, tail: Vec::new(), settings }
}

fn some_good(random: &mut Random) -> File {
    let setting = some_settings(random);
    let most = match random.below(20) {
        0 => 0,
        1 if setting.1 == 1 => usize::MAX,
        2 | 3 => 150,
        4..=8 => 40,
        _ => 12,
    };
    let messages = routes::messages(setting.0, setting.1);
    good(random, setting, if most == usize::MAX { most } else { most.min(messages) })
}

const DAMAGES: usize = 36;

/// Damages a file in one of the ways 0 to `DAMAGES` - 1. An earlier damage may have left no line.
fn damage(random: &mut Random, file: &mut File, kind: usize) {
    if file.lines.is_empty() {
        file.tail.push(random.pick(b"0\0\r"));
        return;
    }
    let place = file.place(random);
    let final_place = file.lines.len() - 1;
    let s = file.settings.clone();
    let node = random.below(usize::from(s.n)) as u8;
    let some_word = random.word();
    match kind {
        // Bytes that are no digits, blank lines, lines too short and too long: 20.
        0 => {
            let bad = random.pick(b"abcdefgGxX /:@`'?[{\0\r\t\x0B\x7F\x80\xB0\xC1\xFF-+.,");
            let line = &mut file.lines[place];
            if !line.is_empty() {
                let at = random.below(line.len());
                line[at] = bad;
            }
        }
        1 => {
            file.lines[place].make_ascii_lowercase();
            if let Some(last) = file.lines[place].last_mut() {
                *last = b'a';
            }
        }
        2 => {
            file.lines[place].pop();
        }
        3 => file.lines[place].push(b'0'),
        4 => file.lines[place].push(random.pick(b"\r \0")),
        5 => {
            let length = random.pick(&[19, 20, 21, 22, 36, 40, 256, 274]);
            file.lines[place].resize(length, b'0');
        }
        6 => file.lines.insert(place, Vec::new()),
        7 => {
            let length = random.pick(&[300, 5_000, 70_000]);
            file.lines.insert(place, vec![random.pick(b"0F\0z"); length]);
        }
        8 => {
            for line in &mut file.lines {
                line.push(b'\r');
            }
        }
        9 => file.lines[place].insert(0, random.pick(b" \t\0\r")),
        // Kinds: 21.
        10 => {
            let kind = random.pick(&[0x00, 0x04, 0x05, 0x0A, 0x10, 0x11, 0x12, 0x1F, 0x20, 0x30, 0x81, 0xFF]);
            let old = file.lines[place].len().min(2);
            file.lines[place].splice(..old, digits(&[kind]));
        }
        11 => file.lines.insert(place + 1, begin(&s)),
        12 => file.lines.insert(0, message(&[node], some_word)),
        13 => file.lines.insert(0, end(0)),
        14 => {
            file.lines.remove(0);
        }
        15 => file.lines.swap(0, place),
        16 => {
            let after: [Vec<u8>; 7] = [
                message(&[node], some_word),
                end(0),
                file.lines[final_place].clone(),
                begin(&s),
                digits(&[0x04]),
                Vec::new(),
                b"0".to_vec(),
            ];
            file.lines.push(after[random.below(7)].clone());
        }
        17 => {
            // The `03` line comes too soon, with a count that is right there or right at the end.
            let count =
                random.pick(&[place as u16, place.saturating_sub(1) as u16, file.messages().len() as u16]);
            file.lines.insert(place.max(1), end(count));
        }
        // Byte counts: 22.
        18 => {
            let length = file.lines[place].len().saturating_sub(2);
            file.lines[place].truncate(length);
        }
        19 => file.lines[place].extend(digits(&[random.byte()])),
        20 => {
            let kind = random.pick(&[1, 2, 3]);
            file.lines[place] = digits(&[kind]);
        }
        21 => {
            for at in file.messages().into_iter().take(1) {
                let length = random.pick(&[0, 1, 2, 3, 4, 5, 6, 7, 16, 128, 255]);
                if file.lines[at].len() >= 4 {
                    file.lines[at].splice(2..4, digits(&[length]));
                }
            }
        }
        // Settings: 1 to 7.
        22 | 23 => {
            let mut bad = s.clone();
            for _ in 0..random.between(1, 3) {
                match random.below(7) {
                    0 => bad.n = random.pick(&[0, 1, 2, 3, 16, 17, 20, 128, 255]),
                    1 => bad.m = random.pick(&[0, 4, 5, 128, 255]),
                    2 => bad.u = random.pick(&[0, bad.m.wrapping_sub(1)]),
                    3 => bad.u = random.pick(&[bad.n.wrapping_sub(bad.m.wrapping_mul(2)), bad.n, 254, 255]),
                    4 => bad.sender = random.pick(&[bad.n, bad.n.wrapping_add(1), 128, 255]),
                    5 => bad.value = random.pick(&[65_001, 65_002, 65_535]),
                    _ => bad.faults |= 0x8000 >> random.below(2),
                }
            }
            file.lines[0] = begin(&bad);
        }
        // Routes: 23.
        24 => {
            let n = s.n;
            let m = usize::from(s.m);
            let mut nodes: Vec<u8> = (0..n).filter(|&node| node != s.sender).collect();
            random.shuffle(&mut nodes);
            let long = m + 2;
            nodes.resize(nodes.len().max(5), 0);
            let length = random.between(1, m + 1);
            let spoilt = random.below(length);
            match random.below(6) {
                0 => nodes.truncate(0),
                1 => nodes.truncate(5),
                2 => nodes.truncate(long),
                3 => {
                    nodes.truncate(length);
                    nodes[spoilt] = random.pick(&[n, n + 1, 128, 255]);
                }
                4 => {
                    nodes.truncate(length);
                    nodes[spoilt] = s.sender;
                }
                _ => {
                    nodes.truncate(length.max(2));
                    nodes[0] = nodes[1];
                }
            }
            file.lines.insert(final_place.max(1), message(&nodes, some_word));
            file.recount();
        }
        // A cell given before: 24, whatever the word.
        25 | 26 => {
            let messages = file.messages();
            if !messages.is_empty() {
                let mut again = file.lines[random.pick(&messages)].clone();
                if random.chance(1, 2) {
                    if let Some(last) = again.last_mut() {
                        *last = if *last == b'0' { b'1' } else { b'0' };
                    }
                }
                let at = random.between(1, final_place.max(1));
                file.lines.insert(at, again);
                if random.chance(2, 3) {
                    file.recount();
                }
            }
        }
        // The count: 25.
        27 => {
            let count = file.messages().len() as u16;
            let wrong = [
                count.wrapping_add(1),
                count.wrapping_sub(1),
                count.wrapping_add(256),
                count.swap_bytes(),
                0,
                65_535,
            ];
            file.lines[final_place] = end(random.pick(&wrong));
        }
        28 => {
            if final_place > 1 {
                file.lines.remove(place.clamp(1, final_place - 1));
            }
        }
        // The end: 26.
        29 => {
            file.lines.pop();
        }
        30 => file.tail = file.lines.pop().unwrap(),
        31 => {
            let tails: [&[u8]; 10] = [
                b"0",
                b"\r",
                b"\0",
                b" ",
                b"030000",
                b"0201010007",
                b"0000000000000000000",
                b"00000000000000000000",
                b"zz",
                b"04",
            ];
            file.tail = random.pick(&tails).to_vec();
        }
        32 => {
            let length = random.pick(&[19, 20, 300, 5_000, 70_000]);
            file.tail = vec![random.pick(b"0F\0z"); length];
        }
        // Anything.
        33 => {
            let mut bytes = file.bytes();
            bytes.truncate(random.below(bytes.len() + 1));
            replace(file, &bytes);
        }
        34 => {
            let mut bytes = file.bytes();
            let at = random.below(bytes.len());
            match random.below(3) {
                0 => bytes[at] ^= 1 << random.below(8),
                1 => bytes.insert(at, random.pick(b"\n\0\r0A")),
                _ => {
                    bytes.remove(at);
                }
            }
            replace(file, &bytes);
        }
        _ => {
            let length = random.below(60);
            let bytes: Vec<u8> = (0..length).map(|_| random.pick(b"0000111222333ABCDEF\n\n\n\r\0")).collect();
            replace(file, &bytes);
        }
    }
}

/// Cuts bytes into lines again.
fn replace(file: &mut File, bytes: &[u8]) {
    let mut lines: Vec<Vec<u8>> = bytes.split(|&byte| byte == b'\n').map(<[u8]>::to_vec).collect();
    file.tail = lines.pop().unwrap();
    file.lines = lines;
}
