//! What is turned away: for each number the condition under which it is given, and for each call the
//! numbers that it uses. The lowest number that applies is given, 0 if none does.

use crate::routes;
use crate::words;

/// What an exchange is given, except the table and the row.
#[derive(Clone, Debug)]
pub struct Settings {
    pub n: u32,
    pub m: u32,
    pub u: u32,
    pub sender: u32,
    pub value: u16,
    pub faults: u16,
}

impl Settings {
    /// Does one of the numbers 1 to 7 apply?
    pub fn applies(&self, number: u32) -> bool {
        let (n, m, u) = (u64::from(self.n), u64::from(self.m), u64::from(self.u));
        match number {
            1 => n < 4 || n > 15,
            2 => m == 0 || m > 3,
            3 => u < m,
            4 => n <= 2 * m + u,
            5 => u64::from(self.sender) >= n,
            6 => words::reserved(self.value),
            7 => (0..16).any(|bit| self.faults >> bit & 1 == 1 && bit >= n),
            _ => unreachable!(),
        }
    }

    /// The refusal of an `01` line.
    pub fn refusal(&self) -> u32 {
        lowest(&[1, 2, 3, 4, 5, 6, 7], |number| self.applies(number))
    }
}

/// The first of `numbers`, which ascend, that applies. Those after it are not looked at.
fn lowest(numbers: &[u32], applies: impl Fn(u32) -> bool) -> u32 {
    numbers.iter().copied().find(|&number| applies(number)).unwrap_or(0)
}

/// The refusal of an exchange.
pub fn exchange(settings: &Settings, table: usize, row: usize) -> u32 {
    lowest(&[1, 2, 3, 4, 5, 6, 7, 8, 9], |number| match number {
        8 => table != 2 * routes::messages(settings.n, settings.m),
        9 => row != 2 * settings.n as usize,
        _ => settings.applies(number),
    })
}

/// The refusal of a vote.
pub fn vote(threshold: u64, list: usize) -> u32 {
    lowest(&[11, 12], |number| match number {
        11 => threshold == 0,
        _ => list % 2 == 1,
    })
}

/// Where no u is taken: N, m and sender as in `Settings`, but 4 where N is at most 3m.
fn without_u(n: u32, m: u32, sender: u32, number: u32) -> bool {
    match number {
        4 => u64::from(n) <= 3 * u64::from(m),
        _ => Settings { n, m, u: m, sender, value: 0, faults: 0 }.applies(number),
    }
}

/// The refusal of route to cell.
pub fn cell_of_route(n: u32, m: u32, sender: u32, nodes: [u8; 4], length: u32) -> u32 {
    lowest(&[1, 2, 4, 5, 13], |number| match number {
        13 => match nodes.get(..length as usize) {
            Some(route) => routes::routes(n, m, sender).cell(route).is_none(),
            None => true,
        },
        _ => without_u(n, m, sender, number),
    })
}

/// The refusal of cell to route.
pub fn route_of_cell(n: u32, m: u32, sender: u32, cell: u32) -> u32 {
    lowest(&[1, 2, 4, 5, 14], |number| match number {
        14 => cell as usize >= routes::messages(n, m),
        _ => without_u(n, m, sender, number),
    })
}

/// The refusal of one round's part.
pub fn round_part(n: u32, m: u32, table: usize, round: u32) -> u32 {
    lowest(&[1, 2, 4, 8, 15], |number| match number {
        8 => table != 2 * routes::messages(n, m),
        15 => round > m,
        _ => without_u(n, m, 0, number),
    })
}
