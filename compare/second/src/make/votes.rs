//! Votes.

use crate::cases::Case;
use crate::random::Random;
use crate::words;
use std::collections::BTreeMap;

pub fn fixed(random: &mut Random) -> Vec<Case> {
    let lists: [(u64, &[u16]); 16] = [
        (2, &[1, 2, 2, 3]),
        (2, &[1, 2, 0, 3]),
        (2, &[1, 2, 2, 1]),
        (1, &[]),
        (5, &[7, 7, 7, 7]),
        (4, &[7, 7, 7, 7]),
        (3, &[7, 7, 9, 9]),
        (3, &[7, 7, 0, 7]),
        (2, &[0, 0, 5, 5]),
        (2, &[0, 65_001, 5, 5]),
        (2, &[65_535, 65_001, 5, 6]),
        (2, &[65_000, 65_000, 65_001, 0, 0]),
        (1, &[3]),
        (1, &[3, 4]),
        ((1 << 32) + 1, &[3]),
        (u64::MAX, &[3, 3]),
    ];
    let mut cases: Vec<Case> = lists
        .iter()
        .map(|&(threshold, list)| Case::Vote { threshold, list: words::to_bytes(list) })
        .collect();
    for (threshold, length) in [(0, 0), (0, 1), (0, 8), (0, 9), (1, 1), (2, 3), (2, 9), (u64::MAX, 5)] {
        cases.push(Case::Vote { threshold, list: random.bytes(length) });
    }
    for length in [255, 256, 257, 1000, 3000] {
        cases.push(of_length(random, length));
    }
    cases
}

pub fn any(random: &mut Random) -> Case {
    let length = match random.below(100) {
        0 => random.between(200, 3000),
        1..=9 => random.between(20, 200),
        10..=14 => random.between(0, 2),
        _ => random.between(2, 20),
    };
    let mut case = of_length(random, length);
    if let Case::Vote { threshold, list } = &mut case {
        if random.chance(1, 25) {
            *threshold = 0;
        }
        if random.chance(1, 25) {
            list.push(random.byte());
        }
    }
    case
}

/// A vote over so many words, with a threshold that some value just reaches or just misses.
fn of_length(random: &mut Random, length: usize) -> Case {
    let some = 1 + random.below(65_000) as u16;
    let pools: [&[u16]; 6] = [
        &[some, 0],
        &[some, 1, 2],
        &[0, 65_001, 65_535, some],
        &[1, 2, 3, 0, 65_000, 65_001],
        &[0x0102, 0x0201, 0x0202],
        &[65_002, 65_535],
    ];
    let pool = random.pick(&pools);
    let mut list: Vec<u16> = (0..length).map(|_| random.pick(pool)).collect();
    if random.chance(1, 4) {
        // As many of the one as of the other.
        for (place, word) in list.iter_mut().enumerate() {
            *word = pool[place % 2];
        }
        random.shuffle(&mut list);
    }
    if random.chance(1, 10) {
        list = (0..length).map(|_| random.word()).collect();
    }
    let mut counts: BTreeMap<u16, u64> = BTreeMap::new();
    for &word in &list {
        *counts.entry(words::met(word)).or_insert(0) += 1;
    }
    let counts: Vec<u64> = counts.into_values().collect();
    let count = if counts.is_empty() { 0 } else { random.pick(&counts) };
    let threshold = match random.below(10) {
        0..=3 => count,
        4..=5 => count + 1,
        6 => count.saturating_sub(1),
        7 => length as u64 / 2 + 1,
        8 => random.between(1, length + 2) as u64,
        _ => random.pick(&[
            1,
            length as u64,
            length as u64 + 1,
            count + (1 << 32),
            count + (1 << 16),
            u64::MAX,
        ]),
    };
    Case::Vote { threshold: threshold.max(1), list: words::to_bytes(&list) }
}
