//! Exchanges.

use super::{
    accepted_settings, bad_m, bad_nodes, bad_sender, beyond, singles_and_pairs, some_of, some_settings, FAR,
};
use crate::cases::Case;
use crate::random::Random;
use crate::refusals::Settings;
use crate::routes;
use crate::words;

const REFUSALS: [u32; 9] = [1, 2, 3, 4, 5, 6, 7, 8, 9];

pub fn fixed(random: &mut Random) -> Vec<Case> {
    let mut cases = worked();
    for setting in accepted_settings() {
        cases.push(accepted(random, setting));
    }
    for numbers in singles_and_pairs(&REFUSALS) {
        cases.push(refused(random, &numbers));
        cases.push(refused(random, &numbers));
    }
    // A number far beyond a byte, the rest accepted.
    for far in FAR {
        for field in 0..4 {
            let mut case = accepted(random, (5, 1, 2));
            if let Case::Exchange { settings: s, .. } = &mut case {
                *[&mut s.n, &mut s.m, &mut s.u, &mut s.sender][field] += far;
            }
            cases.push(case);
        }
    }
    // The row and the table one byte and one word short and long.
    for off in [-2, -1, 1, 2] {
        let Case::Exchange { settings, table, whole, from, length } = accepted(random, (7, 2, 2)) else {
            unreachable!()
        };
        let other = random.bytes((length as isize + off) as usize + 8);
        cases.push(Case::Exchange {
            settings: settings.clone(),
            table: table.clone(),
            whole: other,
            from: 4,
            length: (length as isize + off) as usize,
        });
        let mut table = table;
        table.resize((table.len() as isize + off) as usize, 1);
        cases.push(Case::Exchange { settings, table, whole, from, length });
    }
    cases
}

pub fn any(random: &mut Random) -> Case {
    if random.chance(1, 5) {
        let numbers = some_of(random, &REFUSALS);
        refused(random, &numbers)
    } else {
        let setting = some_settings(random);
        accepted(random, setting)
    }
}

/// Exchanges that the paper works out or names.
fn worked() -> Vec<Case> {
    let mut cases = Vec::new();
    let mut push = |n, m, u, sender, value, faults, table: &[u16]| {
        cases.push(Case::Exchange {
            settings: Settings { n, m, u, sender, value, faults },
            table: words::to_bytes(table),
            whole: vec![0xA5; 2 * n as usize + 8],
            from: 4,
            length: 2 * n as usize,
        })
    };
    // The sample file; P13 and P14.
    push(5, 1, 2, 0, 7, 0x18, &[0, 0, 0, 0, 0, 0, 0, 0, 0, 0, 9, 0, 0, 9, 7, 0]);
    push(4, 1, 1, 0, 1, 1, &[5, 5, 8, 0, 0, 0, 0, 0, 0]);
    push(4, 1, 1, 0, 1, 1, &[5, 6, 8, 0, 0, 0, 0, 0, 0]);
    // Both sides of the limits.
    push(7, 2, 2, 0, 1, 0, &[0; 156]);
    push(7, 1, 4, 0, 1, 0, &[0; 36]);
    push(7, 2, 3, 0, 1, 0, &[0; 156]);
    push(15, 3, 8, 0, 1, 0, &[0; 26_404]);
    push(15, 3, 9, 0, 1, 0, &[0; 26_404]);
    push(16, 0, 0, 0, 1, 0, &[]);
    push(7, 2, 1, 0, 1, 0, &[0; 156]);
    push(4, 2, 1, 0, 1, 0, &[0; 9]);
    // 260 nodes are not 4.
    push(260, 1, 1, 0, 5, 0, &[0; 9]);
    cases
}

/// An accepted exchange of N, m, u.
fn accepted(random: &mut Random, (n, m, u): (u32, u32, u32)) -> Case {
    let sender = random.below(n as usize) as u32;
    let value = match random.below(8) {
        0 => 0,
        1 => 65_000,
        2 => 1 + random.below(65_000) as u16,
        _ => 1 + random.below(9) as u16,
    };
    let faults = faults(random, n, m, u, sender);
    let settings = Settings { n, m, u, sender, value, faults };
    let table = table(random, &settings);
    let from = random.between(1, 9);
    let length = 2 * n as usize;
    let guard = random.between(1, 9);
    Case::Exchange { whole: random.bytes(from + length + guard), settings, table, from, length }
}

/// A fault word. The counts near m and u are drawn most often, for there the answers turn.
fn faults(random: &mut Random, n: u32, m: u32, u: u32, sender: u32) -> u16 {
    let count = match random.below(10) {
        0 => 0,
        1..=3 => m,
        4..=5 => m + 1,
        6 => u,
        7 => u + 1,
        8 => 1,
        _ => random.between(0, n as usize) as u32,
    };
    let mut nodes: Vec<u32> = (0..n).collect();
    random.shuffle(&mut nodes);
    if random.chance(1, 3) {
        nodes.retain(|&node| node != sender);
        nodes.insert(0, sender);
    }
    nodes.iter().take(count as usize).fold(0, |faults, node| faults | 1 << node)
}

/// A table: what faulty tellers tell, and noise in the cells of fault-free ones.
fn table(random: &mut Random, settings: &Settings) -> Vec<u8> {
    let routes = routes::routes(settings.n, settings.m, settings.sender);
    let other = random.pick(&[0, 1, 2, 9, 64_999, 65_000, 65_001, 65_535]);
    let few = [settings.value, other, 0, random.pick(&[1, 2, 3, 65_001, 65_534])];
    let lies = random.below(6);
    let noise = random.below(5);
    let part = random.between(1, 7);
    let favoured = random.word();
    let spread = few_receivers(random, settings);
    let mut table = Vec::new();
    for cell in 0..routes.messages() {
        let route = routes.route(cell).unwrap();
        let receiver = route[route.len() - 1];
        let teller = if route.len() == 1 { settings.sender as u8 } else { route[route.len() - 2] };
        let faulty = settings.faults >> teller & 1 == 1;
        table.push(if faulty {
            match lies {
                // The same lie, told to all or only to some receivers.
                0 => other,
                1 if favoured >> receiver & 1 == 1 => settings.value,
                1 => other,
                // About m receivers are told something else than the rest.
                2 if spread >> receiver & 1 == 1 => random.pick(&few),
                2 => settings.value,
                3 if random.chance(part, 8) => settings.value,
                3 => other,
                4 => random.pick(&few),
                _ => random.word(),
            }
        } else {
            match noise {
                0 => 0,
                1 => random.word(),
                2 => 65_001 + random.below(535) as u16,
                3 => random.pick(&few),
                _ => other,
            }
        });
    }
    words::to_bytes(&table)
}

/// A set of m or so nodes.
fn few_receivers(random: &mut Random, settings: &Settings) -> u16 {
    let mut nodes: Vec<u32> = (0..settings.n).filter(|&node| node != settings.sender).collect();
    random.shuffle(&mut nodes);
    let count = settings.m as usize + random.below(3) - 1;
    nodes.iter().take(count).fold(0, |set, node| set | 1 << node)
}

/// An exchange to which each of `numbers`, which ascend, applies. Where a number has grown beyond a byte
/// the rest is left as it was, so that whoever cuts it down to a byte accepts the call.
fn refused(random: &mut Random, numbers: &[u32]) -> Case {
    loop {
        let setting = loop {
            let setting = some_settings(random);
            if setting.1 < 3 || random.chance(1, 20) {
                break setting;
            }
        };
        let Case::Exchange { settings: mut s, mut table, mut whole, from, mut length } =
            accepted(random, setting)
        else {
            unreachable!()
        };
        for &number in numbers {
            match number {
                1 => s.n = bad_nodes(random, s.n),
                2 => s.m = bad_m(random, s.m),
                3 if numbers.contains(&4) && !numbers.contains(&2) => {
                    (s.m, s.u) = random.pick(&[(2, 1), (3, 2), (3, 1), (3, 0)])
                }
                3 => s.u = random.below(s.m.clamp(1, 9) as usize) as u32,
                4 if numbers.contains(&3) => (),
                4 => s.u = too_many(random, &s),
                5 => s.sender = bad_sender(random, s.n, s.sender),
                6 => s.value = 65_001 + random.below(535) as u16,
                7 => s.faults |= 1 << random.between((s.n as usize).min(15), 15),
                8 => {
                    let off = random.pick(&[-2, -1, 1, 2, 2 - table.len() as isize, -(table.len() as isize)]);
                    table.resize((table.len() as isize + off) as usize, 0);
                }
                _ => {
                    let off = random.pick(&[-2, -1, 1, 2, 1 - length as isize, -(length as isize)]);
                    length = (length as isize + off) as usize;
                    whole = random.bytes(from + length + 4);
                }
            }
        }
        if numbers.iter().all(|&number| number > 7 || s.applies(number)) {
            return Case::Exchange { settings: s, table, whole, from, length };
        }
    }
}

/// A u that leaves too few nodes; also one with which 2m+u is beyond 32 bits.
fn too_many(random: &mut Random, s: &Settings) -> u32 {
    let first = s.n.saturating_sub(s.m.saturating_mul(2));
    match random.below(6) {
        0 | 1 => first,
        2 => first.saturating_add(1),
        3 => 0u32.wrapping_sub(s.m.saturating_mul(2)),
        4 => u32::MAX - random.below(8) as u32,
        _ => beyond(random, s.u),
    }
}
