//! VOTE with a threshold over a list of words.

use crate::words;
use std::collections::BTreeMap;

/// What a vote returns: its value, and whether it met a tie.
#[derive(Debug, PartialEq)]
pub struct Ballot {
    pub word: u16,
    pub tie: bool,
}

/// The value that at least `threshold` entries equal, if exactly one value has that many; else the
/// default. The threshold is at least 1.
pub fn vote(threshold: u64, list: &[u16]) -> Ballot {
    let mut counts: BTreeMap<u16, u64> = BTreeMap::new();
    for &word in list {
        *counts.entry(words::met(word)).or_insert(0) += 1;
    }
    let mut reached: Vec<u16> = Vec::new();
    for (&word, &count) in &counts {
        if count >= threshold {
            reached.push(word);
        }
    }
    match reached.len() {
        0 => Ballot { word: words::DEFAULT, tie: false },
        1 => Ballot { word: reached[0], tie: false },
        _ => Ballot { word: words::DEFAULT, tie: true },
    }
}
