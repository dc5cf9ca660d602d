//! Document 01's rows and run cases.

use reference::testing::{rows, vouchers};
use reference::{Counts, Reference, MOST_HOUSES};

#[test]
fn the_card_is_its_formulas() {
    for (n, (t, quorum)) in (1..).zip(rows::CARD) {
        let counts = Counts {
            tolerated: t,
            quorum,
            amplify: t + 1,
            deliver: 2 * t + 1,
        };
        assert_eq!(Counts::of(n, 0), Some(counts), "n = {n}");
    }
}

/// t stands in the column of n - 2f, and the quorum is what stands there and f more.
#[test]
fn the_columns_with_f() {
    for (n, f, counts) in rows::all_counts() {
        let (t, quorum) = rows::CARD[usize::from(n - 2 * f) - 1];
        let of_column = (t, quorum + usize::from(f));
        assert_eq!((counts.tolerated, counts.quorum), of_column, "{n}, {f}");
    }
}

#[test]
fn the_counts_for_n_and_f() {
    for (n, f) in (0..=80).flat_map(|n| (0..=80).map(move |f| (n, f))) {
        assert_eq!(Counts::of(n, f), rows::searched(n, f), "n = {n}, f = {f}");
    }
    assert_eq!(Counts::of(31, usize::MAX), None);
    let printed = |t, quorum, deliver| Counts {
        tolerated: t,
        quorum,
        amplify: t + 1,
        deliver,
    };
    assert_eq!(Counts::of(16, 4), Some(printed(2, 10, 9)));
    assert_eq!(Counts::of(31, 0), Some(printed(10, 21, 21)));
    assert_eq!(Counts::of(31, 4), Some(printed(7, 20, 19)));
}

#[test]
fn the_honest_houses_that_are_up_are_enough() {
    for (n, f, counts) in rows::all_counts() {
        let up = usize::from(n) - counts.tolerated - usize::from(f);
        assert!(
            counts.quorum <= up && counts.deliver <= up,
            "n = {n}, f = {f}"
        );
    }
}

#[test]
fn the_counts_on_any_legal_book() {
    vouchers::every_count(&mut Reference, 2026);
}

#[test]
fn a_voucher_that_differs_in_one_bit() {
    vouchers::one_bit_apart(&mut Reference, 2026);
}

#[test]
fn rows_1_to_3_and_10_to_12() {
    rows::card(&mut Reference, 1..=MOST_HOUSES);
}

#[test]
fn ready_with_another_f() {
    rows::another_f(&mut Reference);
}

#[test]
fn rows_4_to_8_and_13_to_17() {
    rows::judged(&mut Reference);
}

#[test]
fn row_9_and_malformed_messages() {
    rows::messages(&mut Reference);
}

#[test]
fn four_honest_send_36_copies() {
    assert_eq!(rows::copies(&mut Reference, &[]), 36);
}

#[test]
fn three_honest_send_28_copies() {
    assert_eq!(rows::copies(&mut Reference, &[3]), 28);
}
