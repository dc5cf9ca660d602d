//! Judging at the edges.

use reference::testing::readings;
use reference::Reference;

#[test]
fn products() {
    readings::products(&mut Reference);
}

#[test]
fn edge_readings_at_open_gates() {
    readings::at_open_gates(&mut Reference);
}

#[test]
fn edge_readings_at_limits() {
    readings::at_limits(&mut Reference);
}

#[test]
fn sheets() {
    readings::sheets(&mut Reference);
}

#[test]
fn zeros_are_counted_apart() {
    readings::counted_apart(&mut Reference);
}
