//! One exchange: the word delivered on a route, BYZ(t,m) as the report writes it, the decision row and
//! the summary.

use crate::refusals::{self, Settings};
use crate::routes::{self, with, Routes};
use crate::vote::vote;
use crate::words;
use std::rc::Rc;

#[derive(Debug, Default, PartialEq)]
pub struct Summary {
    pub refusal: u32,
    pub faults: u32,
    pub fault_class: u32,
    pub ties: u32,
    pub messages: u32,
}

/// Plays one exchange and writes the decision row. A refused call leaves the row as it is.
pub fn exchange(settings: &Settings, table: &[u8], row: &mut [u8]) -> Summary {
    let refusal = refusals::exchange(settings, table.len(), row.len());
    if refusal != 0 {
        return Summary { refusal, ..Summary::default() };
    }
    let mut play = Play {
        settings,
        routes: routes::routes(settings.n, settings.m, settings.sender),
        table: words::of_bytes(table),
        ties: 0,
    };
    let decisions = play.row();
    row.copy_from_slice(&words::to_bytes(&decisions));
    let faults = play.nodes().filter(|&node| play.faulty(node)).count() as u32;
    let fault_class = if faults <= settings.m {
        1
    } else if faults <= settings.u {
        2
    } else {
        3
    };
    let messages = play.routes.messages() as u32;
    Summary { refusal, faults, fault_class, ties: play.ties, messages }
}

struct Play<'a> {
    settings: &'a Settings,
    routes: Rc<Routes>,
    table: Vec<u16>,
    ties: u32,
}

impl Play<'_> {
    fn nodes(&self) -> std::ops::Range<u8> {
        0..self.settings.n as u8
    }

    fn sender(&self) -> u8 {
        self.settings.sender as u8
    }

    fn faulty(&self, node: u8) -> bool {
        self.settings.faults >> node & 1 == 1
    }

    /// A fault-free sender's value, a fault-free receiver's decision, and 65,535 for a faulty node.
    fn row(&mut self) -> Vec<u16> {
        let mut row = Vec::new();
        for node in self.nodes() {
            row.push(if self.faulty(node) {
                words::NOT_REPORTED
            } else if node == self.sender() {
                self.settings.value
            } else {
                self.byz(self.settings.m, &[], node)
            });
        }
        row
    }

    /// The word delivered on a route.
    fn delivered(&self, route: &[u8]) -> u16 {
        let told = &route[..route.len() - 1];
        let teller = told.last().copied().unwrap_or(self.sender());
        if self.faulty(teller) {
            words::met(self.table[self.routes.cell(route).unwrap()])
        } else if told.is_empty() {
            self.settings.value
        } else {
            self.delivered(told)
        }
    }

    /// What receiver `i` decides in BYZ(t,m). The acting sender is the last node of `path`, or the
    /// sender itself if the path is empty; the nodes before it acted before it and take no part.
    fn byz(&mut self, t: u32, path: &[u8], i: u8) -> u16 {
        let receivers: Vec<u8> =
            self.nodes().filter(|&node| node != self.sender() && !path.contains(&node)).collect();
        let n = receivers.len() as u64 + 1;
        let mut votes = Vec::new();
        for &j in &receivers {
            votes.push(if j == i {
                self.delivered(&with(path, i))
            } else if t == 1 {
                self.delivered(&with(&with(path, j), i))
            } else {
                self.byz(t - 1, &with(path, j), i)
            });
        }
        let ballot = vote(n - 1 - u64::from(self.settings.m), &votes);
        if ballot.tie {
            self.ties += 1;
        }
        ballot.word
    }
}
