//! Cases made from a seed: first a fixed part that has every setting, every refusal, every pair of
//! refusals and every kind of damage to a file, then random ones.

mod exchanges;
mod files;
mod routes;
mod votes;

use crate::cases::Case;
use crate::random::Random;
use std::io;

/// Hands `count` cases to `write`, or as many as the fixed part has if that is more.
pub fn make(count: usize, seed: u64, mut write: impl FnMut(&Case) -> io::Result<()>) -> io::Result<()> {
    let mut random = Random::new(seed);
    let fixed = fixed(&mut random);
    for case in &fixed {
        write(case)?;
    }
    for _ in fixed.len()..count {
        write(&any(&mut random))?;
    }
    Ok(())
}

fn fixed(random: &mut Random) -> Vec<Case> {
    let mut cases = exchanges::fixed(random);
    cases.extend(votes::fixed(random));
    cases.extend(routes::fixed(random));
    cases.extend(files::fixed(random));
    cases
}

fn any(random: &mut Random) -> Case {
    match random.below(100) {
        0..=44 => exchanges::any(random),
        45..=57 => votes::any(random),
        58..=72 => routes::any_cell(random),
        73..=79 => routes::any_route(random),
        80..=84 => routes::any_part(random),
        _ => files::any(random),
    }
}

/// Every N, m, u that is accepted.
fn accepted_settings() -> Vec<(u32, u32, u32)> {
    let mut all = Vec::new();
    for n in 4..=15 {
        for m in 1..=3 {
            for u in m..=15 {
                if n > 2 * m + u {
                    all.push((n, m, u));
                }
            }
        }
    }
    all
}

/// One of them: m = 3 seldom, and then seldom with many nodes, for its tables are long.
fn some_settings(random: &mut Random) -> (u32, u32, u32) {
    let m = random.pick(&[1, 1, 1, 1, 1, 1, 1, 1, 1, 2, 2, 2, 2, 2, 2, 3]);
    let most = if m == 3 { random.pick(&[10, 10, 10, 11, 11, 12, 13, 15]) } else { 15 };
    let fitting: Vec<_> =
        accepted_settings().into_iter().filter(|&(n, of, _)| of == m && n <= most).collect();
    random.pick(&fitting)
}

/// Each of `numbers` alone, and each two of them.
fn singles_and_pairs(numbers: &[u32]) -> Vec<Vec<u32>> {
    let mut all = Vec::new();
    for (index, &one) in numbers.iter().enumerate() {
        all.push(vec![one]);
        for &other in &numbers[index + 1..] {
            all.push(vec![one, other]);
        }
    }
    all
}

/// A few of `numbers`, ascending.
fn some_of(random: &mut Random, numbers: &[u32]) -> Vec<u32> {
    if random.chance(1, 2) {
        return vec![random.pick(numbers)];
    }
    let all = singles_and_pairs(numbers);
    let mut some = all[random.below(all.len())].clone();
    if random.chance(1, 4) {
        some.push(random.pick(numbers));
        some.sort();
        some.dedup();
    }
    some
}

/// Added to a number, these leave its lowest byte, and some its lowest half, as it was.
const FAR: [u32; 6] = [0x100, 0x200, 0x1_0000, 0x100_0000, 0x8000_0000, 0xFFFF_FF00];

/// A number far above `number` that has the same lowest byte, or one near the greatest there is.
fn beyond(random: &mut Random, number: u32) -> u32 {
    if random.chance(1, 6) {
        u32::MAX - random.below(4) as u32
    } else {
        number.wrapping_add(random.pick(&FAR))
    }
}

/// A node count that is refused with 1.
fn bad_nodes(random: &mut Random, n: u32) -> u32 {
    match random.below(3) {
        0 => random.pick(&[0, 1, 2, 3]),
        1 => random.pick(&[16, 17, 18, 20, 255]),
        _ => beyond(random, n),
    }
}

/// An m that is refused with 2.
fn bad_m(random: &mut Random, m: u32) -> u32 {
    match random.below(3) {
        0 => 0,
        1 => random.pick(&[4, 5, 6, 255]),
        _ => beyond(random, m),
    }
}

/// A sender that is refused with 5 where N is `n`.
fn bad_sender(random: &mut Random, n: u32, sender: u32) -> u32 {
    match random.below(3) {
        0 => n,
        1 => n.saturating_add(random.below(20) as u32),
        _ => beyond(random, sender),
    }
}

#[cfg(test)]
mod tests {
    use super::*;
    use crate::cases;
    use std::collections::BTreeSet;

    #[test]
    fn the_fixed_part_has_every_setting_and_every_refusal() {
        let mut settings = BTreeSet::new();
        let mut refusals = BTreeSet::new();
        for case in fixed(&mut Random::new(1)) {
            let answer = cases::answer(&case);
            let refusal = answer.split(' ').nth(1).unwrap().to_string();
            if let (Case::Exchange { settings: s, .. }, "0") = (&case, refusal.as_str()) {
                settings.insert((s.n, s.m, s.u));
            }
            let kind = answer.split(' ').next().unwrap().to_string();
            match (kind.as_str(), refusal.starts_with("1F")) {
                ("f", true) => refusals.insert((kind, refusal[2..4].to_string())),
                ("f", false) => refusals.insert((kind, String::from("00"))),
                _ => refusals.insert((kind, refusal)),
            };
        }
        assert_eq!(settings.into_iter().collect::<Vec<_>>(), accepted_settings());
        let mut expected = BTreeSet::new();
        for (kind, numbers) in [
            ("x", vec!["0", "1", "2", "3", "4", "5", "6", "7", "8", "9"]),
            ("v", vec!["0", "11", "12"]),
            ("c", vec!["0", "1", "2", "4", "5", "13"]),
            ("r", vec!["0", "1", "2", "4", "5", "14"]),
            ("p", vec!["0", "1", "2", "4", "8", "15"]),
            (
                "f",
                vec![
                    "00", "01", "02", "03", "04", "05", "06", "07", "14", "15", "16", "17", "18", "19", "1A",
                ],
            ),
        ] {
            for number in numbers {
                expected.insert((kind.to_string(), number.to_string()));
            }
        }
        assert_eq!(refusals, expected);
    }

    #[test]
    fn a_line_reads_back_as_its_case() {
        make(1500, 7, |case| {
            let line = case.to_string();
            assert_eq!(cases::read(&line).to_string(), line);
            Ok(())
        })
        .unwrap();
    }
}
