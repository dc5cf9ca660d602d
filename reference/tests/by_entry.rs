//! Receiving by entry beside receiving, with bad bytes in the head, in the named entry and elsewhere; and seasons of it.

use reference::testing::by_entry::instead::instead;
use reference::testing::by_entry::{self, order};
use reference::testing::scheduler::{self, attacks, directed};
use reference::testing::{repeats, requests, rows, vouchers};
use reference::{Reference, MOST_HOUSES};

#[test]
fn as_receiving_on_legal_books() {
    by_entry::as_receiving(&mut Reference, 2026, 200);
}

#[test]
fn bad_slots_elsewhere_and_in_the_entry() {
    by_entry::bad_slots(&mut Reference, 2027, 150);
}

#[test]
fn each_slot_of_an_entry_and_around_it() {
    by_entry::each_slot(&mut Reference);
}

#[test]
fn each_field_of_the_head() {
    by_entry::heads(&mut Reference);
}

#[test]
fn a_request_tests_the_head_alone() {
    by_entry::requests(&mut Reference, 2028, 40);
}

#[test]
fn noise_elsewhere_stays() {
    by_entry::noise(&mut Reference, 2029, 100_000);
}

#[test]
fn the_first_answer_in_order() {
    order::receiving(&mut Reference, 2030);
    order::asking(&mut Reference);
}

#[test]
fn seasons_by_entry() {
    instead(&mut Reference, |library| {
        for n in 1..=9 {
            scheduler::seasons(library, 2031, n, 1 + n % 4, 12);
        }
        scheduler::seasons(library, 2032, MOST_HOUSES, 1, 1);
        scheduler::hostile(library, 2033, 7, 2);
    });
}

#[test]
fn directed_seasons_by_entry() {
    instead(&mut Reference, |library| {
        directed::one_wrong_too_many(library);
        directed::liar_and_carrier(library);
        directed::crashes(library);
        attacks::splits(library);
        assert_eq!(rows::copies(library, &[]), 36, "four honest houses");
        assert_eq!(rows::copies(library, &[3]), 28, "three honest houses");
    });
}

#[test]
fn steps_by_entry() {
    instead(&mut Reference, |library| {
        rows::card(library, 1..=MOST_HOUSES);
        vouchers::every_count(library, 2034);
        repeats::every_byte(library);
        repeats::every_pair(library);
        repeats::any_book(library, 2035, 300);
        requests::every_count(library, 2036);
        requests::until_enough(library, 2037);
        requests::heard_all_the_same(library);
    });
}
