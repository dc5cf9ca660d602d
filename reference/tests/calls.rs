//! Single calls on all kinds of books and messages.

use reference::testing::{books, openings, refusals, requests, returns, trips};
use reference::Reference;

#[test]
fn refusals_change_and_carry_nothing() {
    refusals::calls(&mut Reference, 2026, 4_500);
}

#[test]
fn noise_is_refused() {
    books::noise(&mut Reference, 2031, 20_000);
}

#[test]
fn lengths_of_books() {
    openings::lengths(&mut Reference);
}

#[test]
fn openings_write_all_or_nothing() {
    openings::openings(&mut Reference, 2027, 4_500);
}

#[test]
fn openings_with_every_f_and_d() {
    openings::every_f_and_d(&mut Reference);
}

#[test]
fn books_that_are_not_legal() {
    books::illegal_books(&mut Reference);
}

#[test]
fn books_with_every_f_d_and_help_count() {
    books::helped_and_down(&mut Reference, 2038);
}

#[test]
fn the_earliest_waiting_entry() {
    books::waiting(&mut Reference, 2028, 4_500);
}

#[test]
fn round_trips() {
    trips::round(&mut Reference, 2029, 10_000);
}

#[test]
fn what_reading_refuses() {
    trips::malformed(&mut Reference, 2030);
}

#[test]
fn the_one_form_of_a_request() {
    requests::one_form(&mut Reference, 2032);
}

#[test]
fn requests_at_every_help_count() {
    requests::every_count(&mut Reference, 2033);
}

#[test]
fn requests_until_helped_enough() {
    requests::until_enough(&mut Reference, 2034);
}

#[test]
fn who_was_helped_enough_is_heard() {
    requests::heard_all_the_same(&mut Reference);
}

#[test]
fn round_trips_of_requests() {
    requests::round(&mut Reference, 2035, 4_000);
}

#[test]
fn returns_and_what_was_sent() {
    returns::any_book(&mut Reference, 2036, 4_500);
    returns::all_sent(&mut Reference, 2037);
    returns::every_kind_and_number(&mut Reference);
    returns::order(&mut Reference);
    returns::given_and_sent(&mut Reference);
}
