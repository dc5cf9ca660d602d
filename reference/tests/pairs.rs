//! Each pair of errors at once.

use reference::testing::pairs;
use reference::Reference;

#[test]
fn receiving() {
    pairs::receiving(&mut Reference);
}

#[test]
fn asking() {
    pairs::asking(&mut Reference);
    pairs::nobody_to_help(&mut Reference);
}

#[test]
fn publishing() {
    pairs::publishing(&mut Reference);
}

#[test]
fn opening() {
    pairs::opening(&mut Reference);
}

#[test]
fn judging() {
    pairs::judging(&mut Reference);
}
