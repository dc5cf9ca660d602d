//! The lot roll.

use reference::testing::rolls::deliveries::{self, Entered};
use reference::testing::rolls::{cases, drawn};
use reference::Reference;

#[test]
fn a_declarations_line() {
    cases::lines(&mut Reference);
}

#[test]
fn the_first_lot_on_an_empty_roll() {
    cases::first_lot(&mut Reference);
}

#[test]
fn lots_in_every_order() {
    cases::orders(&mut Reference);
}

#[test]
fn each_place_entered_and_struck() {
    cases::places(&mut Reference);
}

#[test]
fn readings_that_are_not_finite() {
    cases::readings(&mut Reference);
}

#[test]
fn the_highest_moisture_of_two() {
    cases::highest(&mut Reference);
}

#[test]
fn zeros_of_both_signs() {
    cases::zeros(&mut Reference);
}

#[test]
fn the_highest_struck() {
    cases::falling(&mut Reference);
}

#[test]
fn kilograms_past_32_bits() {
    cases::kilograms(&mut Reference);
}

#[test]
fn totals_with_one_field_off() {
    cases::totals_off(&mut Reference);
}

#[test]
fn unordered_rolls() {
    cases::unordered(&mut Reference);
}

#[test]
fn lines_that_are_not_lent() {
    cases::not_lent(&mut Reference);
}

#[test]
fn two_answers_at_once() {
    cases::order(&mut Reference);
}

#[test]
fn the_longest_rolls() {
    cases::long(&mut Reference);
}

#[test]
fn sequences_on_rolls_of_few_lines() {
    drawn::few_lines(&mut Reference, 2039, 20_000);
}

#[test]
fn sequences_on_the_longest_rolls() {
    drawn::most_lines(&mut Reference, 2040, 120);
}

#[test]
fn what_houses_deliver() {
    let mut all = Entered::default();
    for size in [[1, 1], [2, 1], [4, 2], [5, 1], [7, 1]] {
        all.add_all(&deliveries::entered(&mut Reference, 2041, size, 40));
    }
    assert_eq!(all.rare(100), []);
}
