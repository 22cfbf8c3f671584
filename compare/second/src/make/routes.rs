//! Route to cell, cell to route, and one round's part.

use super::{
    accepted_settings, bad_m, bad_nodes, bad_sender, beyond, singles_and_pairs, some_of, some_settings, FAR,
};
use crate::cases::Case;
use crate::random::Random;
use crate::routes;

const CELL: [u32; 5] = [1, 2, 4, 5, 13];
const ROUTE: [u32; 5] = [1, 2, 4, 5, 14];
const PART: [u32; 5] = [1, 2, 4, 8, 15];

pub fn fixed(random: &mut Random) -> Vec<Case> {
    let mut cases = Vec::new();
    for (sender, nodes, length) in [(0, [2, 1, 0, 0], 2), (0, [3, 2, 9, 9], 2), (2, [3, 0, 3, 3], 2)] {
        cases.push(Case::Cell { n: 4, m: 1, sender, nodes, length });
    }
    // Every cell of N = 4, both ways.
    for sender in 0..4 {
        for cell in 0..10 {
            cases.push(Case::Route { n: 4, m: 1, sender, cell });
            if let Some(route) = routes::routes(4, 1, sender).route(cell as usize) {
                cases.push(cell_of(random, 4, 1, sender, route));
            }
        }
    }
    // The ends of every round, both ways, and the parts.
    for (n, m, u) in accepted_settings() {
        if u > m {
            continue;
        }
        let sender = random.below(n as usize) as u32;
        let routes = routes::routes(n, m, sender);
        let table = 2 * routes.messages();
        for round in 0..=m {
            let (start, end) = routes.round(round);
            for cell in [start, end - 1] {
                cases.push(Case::Route { n, m, sender, cell: cell as u32 });
                cases.push(cell_of(random, n, m, sender, routes.route(cell).unwrap()));
            }
            cases.push(Case::Part { n, m, table, round });
        }
        cases.push(Case::Part { n, m, table, round: m + 1 });
        cases.push(Case::Route { n, m, sender, cell: routes.messages() as u32 });
    }
    // A number far beyond a byte, the rest accepted.
    for far in FAR {
        for field in 0..4 {
            let mut case = good_cell(random);
            if let Case::Cell { n, m, sender, length, .. } = &mut case {
                *[n, m, sender, length][field] += far;
            }
            cases.push(case);
            let mut case = good_route(random);
            if let Case::Route { n, m, sender, cell } = &mut case {
                let number = [n, m, sender, cell];
                *number[field] = number[field].wrapping_add(far);
            }
            cases.push(case);
        }
        for field in 0..3 {
            let mut case = good_part(random);
            if let Case::Part { n, m, round, .. } = &mut case {
                *[n, m, round][field] += far;
            }
            cases.push(case);
        }
    }
    for _ in 0..3 {
        for numbers in singles_and_pairs(&CELL) {
            cases.push(bad_cell(random, &numbers));
        }
        for numbers in singles_and_pairs(&ROUTE) {
            cases.push(bad_route(random, &numbers));
        }
        for numbers in singles_and_pairs(&PART) {
            cases.push(bad_part(random, &numbers));
        }
    }
    cases
}

pub fn any_cell(random: &mut Random) -> Case {
    if random.chance(1, 3) {
        let numbers = some_of(random, &CELL);
        bad_cell(random, &numbers)
    } else {
        good_cell(random)
    }
}

pub fn any_route(random: &mut Random) -> Case {
    if random.chance(1, 4) {
        let numbers = some_of(random, &ROUTE);
        bad_route(random, &numbers)
    } else {
        good_route(random)
    }
}

pub fn any_part(random: &mut Random) -> Case {
    if random.chance(1, 2) {
        let numbers = some_of(random, &PART);
        bad_part(random, &numbers)
    } else {
        good_part(random)
    }
}

/// A route with noise beyond its length.
fn cell_of(random: &mut Random, n: u32, m: u32, sender: u32, route: &[u8]) -> Case {
    let mut nodes = [0; 4];
    for place in &mut nodes {
        *place = random.pick(&[0, sender as u8, route[0], n as u8, 255]);
    }
    nodes[..route.len()].copy_from_slice(route);
    Case::Cell { n, m, sender, nodes, length: route.len() as u32 }
}

fn good_cell(random: &mut Random) -> Case {
    let (n, m, _) = some_settings(random);
    let sender = random.below(n as usize) as u32;
    let routes = routes::routes(n, m, sender);
    let round = random.below(m as usize + 1) as u32;
    let (start, end) = routes.round(round);
    let cell = random.between(start, end - 1);
    cell_of(random, n, m, sender, routes.route(cell).unwrap())
}

/// A route to which each of `numbers` applies.
fn bad_cell(random: &mut Random, numbers: &[u32]) -> Case {
    let Case::Cell { mut n, mut m, mut sender, mut nodes, mut length } = good_cell(random) else {
        unreachable!()
    };
    for &number in numbers {
        match number {
            1 => n = bad_nodes(random, n),
            2 => m = bad_m(random, m),
            4 => too_few(random, &mut n, &mut m, numbers),
            5 => sender = bad_sender(random, n, sender),
            _ => {
                let place = random.below(length as usize);
                match random.below(5) {
                    0 => length = random.pick(&[0, m.wrapping_add(2), 5, 255, u32::MAX, length + 256]),
                    1 => length = beyond(random, length),
                    2 => nodes[place] = random.pick(&[n as u8, (n as u8).wrapping_add(1), 255]),
                    3 if length > 1 => nodes[place] = nodes[(place + 1) % length as usize],
                    _ => nodes[place] = sender as u8,
                }
            }
        }
    }
    Case::Cell { n, m, sender, nodes, length }
}

fn good_route(random: &mut Random) -> Case {
    let (n, m, _) = some_settings(random);
    let sender = random.below(n as usize) as u32;
    let routes = routes::routes(n, m, sender);
    let (start, end) = routes.round(random.below(m as usize + 1) as u32);
    let cell = random.between(start, end - 1) as u32;
    Case::Route { n, m, sender, cell }
}

/// A cell to which each of `numbers` applies.
fn bad_route(random: &mut Random, numbers: &[u32]) -> Case {
    let Case::Route { mut n, mut m, mut sender, mut cell } = good_route(random) else { unreachable!() };
    let messages = routes::messages(n, m) as u32;
    for &number in numbers {
        match number {
            1 => n = bad_nodes(random, n),
            2 => m = bad_m(random, m),
            4 => too_few(random, &mut n, &mut m, numbers),
            5 => sender = bad_sender(random, n, sender),
            _ => {
                let far = [0x1_0000 + cell, 0x8000_0000 + cell, u32::MAX, u32::MAX / 2];
                cell = match random.below(3) {
                    0 => messages,
                    1 => messages + random.below(1000) as u32,
                    _ => random.pick(&far),
                }
            }
        }
    }
    Case::Route { n, m, sender, cell }
}

fn good_part(random: &mut Random) -> Case {
    let (n, m, _) = some_settings(random);
    let round = random.below(m as usize + 1) as u32;
    Case::Part { n, m, table: 2 * routes::messages(n, m), round }
}

/// A part to which each of `numbers` applies.
fn bad_part(random: &mut Random, numbers: &[u32]) -> Case {
    let Case::Part { mut n, mut m, mut table, mut round } = good_part(random) else { unreachable!() };
    for &number in numbers {
        match number {
            1 => n = bad_nodes(random, n),
            2 => m = bad_m(random, m),
            4 => too_few(random, &mut n, &mut m, numbers),
            8 => table = random.pick(&[table - 2, table - 1, table + 1, table + 2, table / 2, 0, 1]),
            _ if random.chance(1, 2) => round = m.saturating_add(1),
            _ => round = beyond(random, round),
        }
    }
    Case::Part { n, m, table, round }
}

/// Makes N at most 3m where N and m are not refused themselves.
fn too_few(random: &mut Random, n: &mut u32, m: &mut u32, numbers: &[u32]) {
    if !numbers.contains(&1) && !numbers.contains(&2) {
        (*n, *m) = random.pick(&[(4, 2), (5, 2), (6, 2), (4, 3), (7, 3), (8, 3), (9, 3)]);
    } else if !numbers.contains(&2) {
        *n = random.pick(&[0, 1, 2, 3]);
    } else {
        *m = random.pick(&[5, 8, 255, u32::MAX, 0x5555_5556, 0x8000_0000]);
    }
}
