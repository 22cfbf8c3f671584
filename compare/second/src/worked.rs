//! Every number that the paper works out.

use crate::cases::{self, Case};
use crate::exchange::{exchange, Summary};
use crate::refusals::{self, Settings};
use crate::routes::{self, routes};
use crate::scenario;
use crate::vote::{vote, Ballot};
use crate::words;

fn settings(n: u32, m: u32, u: u32, sender: u32, value: u16, faults: u16) -> Settings {
    Settings { n, m, u, sender, value, faults }
}

/// The summary and the row of an exchange over `table`.
fn played(s: &Settings, table: &[u16]) -> (Summary, Vec<u16>) {
    let mut row = vec![0xA5; 2 * s.n as usize];
    let summary = exchange(s, &words::to_bytes(table), &mut row);
    (summary, words::of_bytes(&row))
}

#[test]
fn p1_to_p4_messages() {
    for (n, m, messages) in [(4, 1, 9), (5, 1, 16), (7, 2, 156), (10, 3, 3_609), (15, 3, 26_404)] {
        for sender in [0, 1, n - 1] {
            assert_eq!(routes(n, m, sender).messages(), messages);
        }
        assert_eq!(routes::messages(n, m), messages);
    }
}

#[test]
fn p5_and_p6_cells() {
    assert_eq!(routes(4, 1, 0).cell(&[2, 1]), Some(5));
    assert_eq!(routes(4, 1, 0).cell(&[3, 2]), Some(8));
    assert_eq!(routes(4, 1, 2).cell(&[3, 0]), Some(7));
    assert_eq!(routes(4, 1, 0).route(5), Some(&[2, 1][..]));
}

#[test]
fn round_sizes_are_the_products_of_the_paper() {
    for (n, m) in [(4, 1), (7, 2), (10, 3), (15, 3)] {
        let mut start = 0;
        let mut cells = 1;
        for round in 0..=m {
            cells *= (n - 1 - round) as usize;
            assert_eq!(routes(n, m, 1).round(round), (start, start + cells));
            start += cells;
        }
        assert_eq!(routes(n, m, 1).messages(), start);
    }
}

#[test]
fn p7_to_p12_votes() {
    let is = |threshold, list: &[u16], word, tie| {
        assert_eq!(vote(threshold, list), Ballot { word, tie });
    };
    is(2, &[1, 2, 2, 3], 2, false);
    is(2, &[1, 2, 0, 3], 0, false);
    is(2, &[1, 2, 2, 1], 0, true);
    is(1, &[], 0, false);
    is(5, &[7, 7, 7, 7], 0, false);
    is(3, &[7, 7, 9, 9], 0, false);
    is(3, &[7, 7, 0, 7], 7, false);
    is(2, &[0, 0, 5, 5], 0, true);
    is(2, &[0, 65_001, 5, 5], 0, true);
    is(2, &[65_001, 65_535, 5, 6], 0, false);
    is(2, &[65_000, 65_000, 1], 65_000, false);
}

const SAMPLE: &str = "010501020000070018\n020203010009\n020204010009\n020204020007\n030003\n";

#[test]
fn p11_and_p12_in_the_sample() {
    let output = "1100000007\n1101010000\n1102010007\n110302FFFF\n110402FFFF\n12020200000010\n";
    assert_eq!(scenario::play(SAMPLE.as_bytes()), output);
    assert_eq!(
        cases::answer(&Case::File { bytes: SAMPLE.into() }),
        format!("f {}", output.replace('\n', "|"))
    );
}

#[test]
fn p13_and_p14_decisions() {
    let s = settings(4, 1, 1, 0, 3, 1);
    let (summary, row) = played(&s, &[5, 5, 8, 1, 2, 3, 4, 5, 6]);
    assert_eq!(row, [65_535, 5, 5, 5]);
    assert_eq!(summary, Summary { refusal: 0, faults: 1, fault_class: 1, ties: 0, messages: 9 });
    let (_, row) = played(&s, &[5, 6, 8, 1, 2, 3, 4, 5, 6]);
    assert_eq!(row, [65_535, 0, 0, 0]);
}

#[test]
fn both_sides_of_the_limits() {
    let refusal = |n, m, u| settings(n, m, u, 0, 1, 0).refusal();
    assert_eq!(refusal(7, 2, 2), 0);
    assert_eq!(refusal(7, 1, 4), 0);
    assert_eq!(refusal(7, 2, 3), 4);
    assert_eq!(refusal(15, 3, 8), 0);
    assert_eq!(refusal(15, 3, 9), 4);
    assert_eq!(refusal(16, 0, 0), 1);
    assert_eq!(refusal(7, 2, 1), 3);
    assert_eq!(refusal(4, 2, 1), 3);
    assert_eq!(refusal(260, 1, 1), 1);
    assert_eq!(refusal(4, 1, u32::MAX), 4);
    assert_eq!(refusal(4, u32::MAX, u32::MAX), 2);
}

#[test]
fn each_number_of_the_table() {
    let good = settings(4, 1, 1, 0, 7, 0);
    let with = |change: &dyn Fn(&mut Settings)| {
        let mut s = good.clone();
        change(&mut s);
        refusals::exchange(&s, 18, 8)
    };
    assert_eq!(with(&|_| ()), 0);
    assert_eq!(with(&|s| s.n = 3), 1);
    assert_eq!(with(&|s| s.n = 16), 1);
    assert_eq!(with(&|s| s.m = 0), 2);
    assert_eq!(with(&|s| s.m = 4), 2);
    assert_eq!(with(&|s| s.u = 0), 3);
    assert_eq!(with(&|s| s.u = 2), 4);
    assert_eq!(with(&|s| s.sender = 4), 5);
    assert_eq!(with(&|s| s.sender = 3), 0);
    assert_eq!(with(&|s| s.value = 65_001), 6);
    assert_eq!(with(&|s| s.value = 65_000), 0);
    assert_eq!(with(&|s| (s.value, s.faults) = (65_535, 1)), 6);
    assert_eq!(with(&|s| s.faults = 16), 7);
    assert_eq!(with(&|s| s.faults = 15), 0);
    assert_eq!([refusals::exchange(&good, 17, 8), refusals::exchange(&good, 19, 8)], [8, 8]);
    assert_eq!([refusals::exchange(&good, 18, 7), refusals::exchange(&good, 18, 9)], [9, 9]);
    assert_eq!(refusals::exchange(&good, 0, 0), 8);
    assert_eq!([refusals::vote(0, 3), refusals::vote(1, 3), refusals::vote(1, 4)], [11, 12, 0]);
    let cell = |nodes, length| refusals::cell_of_route(4, 1, 0, nodes, length);
    assert_eq!(cell([2, 1, 0, 9], 2), 0);
    assert_eq!(cell([2, 1, 3, 0], 3), 13);
    assert_eq!(cell([2, 1, 3, 0], 0), 13);
    assert_eq!(cell([2, 1, 3, 0], u32::MAX), 13);
    assert_eq!(cell([2, 2, 0, 0], 2), 13);
    assert_eq!(cell([2, 0, 0, 0], 2), 13);
    assert_eq!(cell([4, 2, 0, 0], 2), 13);
    assert_eq!(refusals::cell_of_route(6, 2, 0, [1, 0, 0, 0], 1), 4);
    assert_eq!(refusals::cell_of_route(7, 2, 7, [1, 0, 0, 0], 1), 5);
    assert_eq!(refusals::route_of_cell(4, 1, 0, 8), 0);
    assert_eq!(refusals::route_of_cell(4, 1, 0, 9), 14);
    assert_eq!(refusals::round_part(4, 1, 18, 1), 0);
    assert_eq!(refusals::round_part(4, 1, 18, 2), 15);
    assert_eq!(refusals::round_part(4, 1, 16, 2), 8);
    assert_eq!(refusals::round_part(9, 3, 0, 0), 4);
}

#[test]
fn answers_of_the_small_calls() {
    let is = |case: &str, answer: &str| assert_eq!(cases::answer(&cases::read(case)), answer);
    is("v 2 0001000200020003", "v 0 2 0");
    is("v 2 0001000200020001", "v 0 0 1");
    is("v 1 -", "v 0 0 0");
    is("v 0 00", "v 11 0 0");
    is("c 4 1 0 2 1 77 0 2", "c 0 5");
    is("c 4 1 0 2 1 0 0 3", "c 13 0");
    is("r 4 1 2 7", "r 0 3 0 0 0 2");
    is("r 4 1 2 9", "r 14 0 0 0 0 0");
    is("p 4 1 18 0", "p 0 0 6");
    is("p 4 1 18 1", "p 0 6 18");
    is("p 4 1 18 2", "p 15 0 0");
    is("p 15 3 52808 3", "p 0 4760 52808");
    // The row keeps its bytes on refusal, and nothing is written outside it.
    is("x 4 1 1 4 7 0 - aabbccdd 1 2", "x 5 0 0 0 0 aabbccdd");
    let table = "000500050008000000000000000000000000";
    is(&format!("x 4 1 1 0 7 1 {table} ee1122334455667788ee 1 8"), "x 0 1 1 0 9 eeffff000500050005ee");
}

#[test]
fn the_threshold_does_not_follow_the_level_and_is_no_majority() {
    // N=7, m=1, u=4: 5 of 6. Two faulty relays lie, so 4 of 6 tell the sender's value: default.
    let s = settings(7, 1, 4, 0, 7, 0b110_0000);
    assert_eq!(played(&s, &[9; 36]).1, [7, 0, 0, 0, 0, 65_535, 65_535]);
    // One lies: 5 of 6.
    let s = settings(7, 1, 4, 0, 7, 0b100_0000);
    assert_eq!(played(&s, &[9; 36]).1, [7, 7, 7, 7, 7, 7, 65_535]);
    // N=7, m=2, u=2, two faulty receivers that always say 9. Below the top 3 of 5 are needed: for a
    // fault-free relay the 3 fault-free nodes say 7. Lowering m would ask for 4 of 5.
    let s = settings(7, 2, 2, 0, 7, 0b110_0000);
    assert_eq!(played(&s, &[9; 156]).1, [7, 7, 7, 7, 7, 65_535, 65_535]);
    // A third one, more than u: now 3 of 5 say 9 about each fault-free relay, and 5 of 6 at the top.
    let s = settings(7, 2, 2, 0, 7, 0b111_0000);
    assert_eq!(played(&s, &[9; 156]).1, [7, 9, 9, 9, 65_535, 65_535, 65_535]);
}

#[test]
fn fault_counts_and_classes() {
    for (faults, f, class) in
        [(0, 0, 1), (2, 1, 1), (3, 2, 2), (7, 3, 2), (15, 4, 2), (31, 5, 3), (127, 7, 3)]
    {
        let (summary, _) = played(&settings(7, 1, 4, 0, 7, faults), &[0; 36]);
        assert_eq!((summary.faults, summary.fault_class), (f, class));
    }
}

#[test]
fn refused_files() {
    let is = |text: &str, output: &str| assert_eq!(scenario::play(text.as_bytes()), format!("{output}\n"));
    let start = "010401010000070000\n";
    is("", "1F1A0000");
    is("\n", "1F140001");
    is("0\n", "1F140001");
    is("00\n", "1F150001");
    is("02\n", "1F150001");
    is("01\n", "1F160001");
    is("010300000000070000\n", "1F010001");
    is("010402010000070000\n", "1F030001");
    is("010401010000070010\n", "1F070001");
    is(start, "1F1A0000");
    is(&format!("{start}030000"), "1F1A0000");
    is(&format!("{start}02\n"), "1F160002");
    is(&format!("{start}02000007\n"), "1F170002");
    is(&format!("{start}020501020300000007\n"), "1F170002");
    is(&format!("{start}0201010007\n0201010008\n030002\n"), "1F180003");
    is(&format!("{start}0201010007\n030002\n"), "1F190003");
    is(&format!("{start}030000\n030000\n"), "1F150003");
    is(&format!("{start}030000\n\n"), "1F140003");
    is(&format!("{start}030000\n0000000000000000000"), "1F1A0000");
    is(&format!("{start}030000\n0000000000000000000\n"), "1F140003");
    is(&format!("{start}030000\r\n"), "1F140002");
    is(&format!("{start}03000a\n"), "1F140002");
    is(&format!("{start}{start}"), "1F150002");
    is(&format!("{start}04\nzz"), "1F150002");
}
