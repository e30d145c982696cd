//! Whole runs: the three of the document with their reasons, and some of its sentences one by one.

use crate::run::listing_of;
use crate::store::{Roll, Shelf, Store};

// Records without their length: the kind, then the body.

fn make(nodes: u8, placement: &[u8]) -> Vec<u8> {
    [&[0, nodes, placement.len() as u8], placement].concat()
}

fn begin_search() -> Vec<u8> {
    vec![1, 0]
}

fn begin_update() -> Vec<u8> {
    vec![1, 1]
}

fn read(transaction: u8, key: u8, node: u8) -> Vec<u8> {
    vec![2, transaction, key, node]
}

fn write(transaction: u8, key: u8, value: u64) -> Vec<u8> {
    [&[3, transaction, key], &value.to_le_bytes()[..]].concat()
}

fn offer(transaction: u8) -> Vec<u8> {
    vec![4, transaction]
}

fn prepare(transaction: u8, node: u8) -> Vec<u8> {
    vec![5, transaction, node]
}

fn decide(transaction: u8) -> Vec<u8> {
    vec![6, transaction]
}

fn cancel(transaction: u8) -> Vec<u8> {
    vec![7, transaction]
}

fn learn(transaction: u8, node: u8) -> Vec<u8> {
    vec![8, transaction, node]
}

fn apply(node: u8) -> Vec<u8> {
    vec![9, node]
}

fn finish(transaction: u8) -> Vec<u8> {
    vec![10, transaction]
}

/// Runs the records over a store and compares the answers, without their places.
fn expect_over<S: Store>(steps: &[(Vec<u8>, &str)]) {
    let mut tape = Vec::new();
    for (record, _) in steps {
        tape.extend_from_slice(&(record.len() as u16 + 1).to_le_bytes());
        tape.extend_from_slice(&[record[0], 0]);
        tape.extend_from_slice(&record[1..]);
    }
    let listing = String::from_utf8(listing_of::<S>(&tape)).unwrap();
    let answers: Vec<&str> = listing.lines().map(|line| line.split_once(' ').unwrap().1).collect();
    let expected: Vec<&str> = steps.iter().map(|(_, answer)| *answer).collect();
    assert_eq!(answers, expected);
}

fn expect(steps: &[(Vec<u8>, &str)]) {
    expect_over::<Shelf>(steps);
    expect_over::<Roll>(steps);
}

#[test]
fn a_search_that_has_read_half_of_an_update_is_put_off() {
    expect(&[
        (make(2, &[0b01, 0b10]), "ok"),
        (begin_update(), "t 1"),
        (write(1, 0, 10), "ok"),
        (write(1, 1, 11), "ok"),
        (offer(1), "polls 2"),
        (prepare(1, 0), "yes 1"),
        (decide(1), "refused 19"),
        (prepare(1, 1), "yes 1"),
        (decide(1), "commit 1"),
        (learn(1, 0), "ok"),
        (apply(0), "applied 1"),
        (begin_search(), "t 2"),
        (read(2, 0, 0), "value 10 from 1"),
        (read(2, 1, 1), "refused 12"),
        (apply(1), "refused 21"),
        (learn(1, 1), "ok"),
        (apply(1), "applied 1"),
        (read(2, 1, 1), "value 11 from 1"),
        (finish(2), "ok"),
    ]);
}

#[test]
fn a_reader_that_is_overwritten() {
    expect(&[
        (make(2, &[0b01, 0b10]), "ok"),
        (begin_update(), "t 1"),
        (read(1, 0, 0), "value 0 from 0"),
        (write(1, 1, 7), "ok"),
        (offer(1), "polls 2"),
        (prepare(1, 0), "yes 0"),
        (prepare(1, 1), "yes 1"),
        (decide(1), "commit 1"),
        (begin_update(), "t 2"),
        (write(2, 0, 8), "ok"),
        (offer(2), "polls 1"),
        (prepare(2, 0), "refused 18"),
        (learn(1, 0), "ok"),
        (prepare(2, 0), "yes 2"),
        (decide(2), "commit 2"),
        (learn(2, 0), "ok"),
        (apply(0), "applied 2"),
        (begin_search(), "t 3"),
        (read(3, 0, 0), "value 8 from 2"),
        (read(3, 1, 1), "refused 12"),
        (learn(1, 1), "ok"),
        (apply(1), "applied 1"),
        (read(3, 1, 1), "value 7 from 1"),
    ]);
}

#[test]
fn the_higher_of_two_stamps_is_seen_and_the_lower_is_not() {
    expect(&[
        (make(3, &[0b001, 0b010, 0b100, 0b100]), "ok"),
        (begin_search(), "t 1"),
        (read(1, 0, 0), "value 0 from 0"),
        (begin_update(), "t 2"),
        (write(2, 0, 20), "ok"),
        (offer(2), "polls 1"),
        (prepare(2, 0), "yes 2"),
        (decide(2), "commit 2"),
        (learn(2, 0), "ok"),
        (apply(0), "applied 2"),
        (begin_update(), "t 3"),
        (read(3, 0, 0), "value 20 from 2"),
        (write(3, 2, 30), "ok"),
        (offer(3), "polls 2"),
        (prepare(3, 0), "yes 0"),
        (prepare(3, 2), "yes 3"),
        (decide(3), "commit 3"),
        (begin_update(), "t 4"),
        (write(4, 1, 40), "ok"),
        (write(4, 3, 41), "ok"),
        (offer(4), "polls 2"),
        (prepare(4, 1), "yes 4"),
        (prepare(4, 2), "yes 4"),
        (decide(4), "commit 4"),
        (learn(4, 2), "ok"),
        (apply(2), "refused 21"),
        (learn(3, 2), "ok"),
        (apply(2), "applied 3"),
        (apply(2), "applied 4"),
        (apply(2), "refused 20"),
        (learn(4, 1), "ok"),
        (apply(1), "applied 4"),
        (read(1, 1, 1), "value 40 from 4"),
        (read(1, 2, 2), "value 0 from 0"),
        (read(1, 3, 2), "value 41 from 4"),
    ]);
}

#[test]
fn an_update_that_reads_late_is_overtaken() {
    expect(&[
        (make(1, &[1, 1]), "ok"),
        (begin_update(), "t 1"),
        (read(1, 0, 0), "value 0 from 0"),
        (begin_update(), "t 2"),
        (write(2, 0, 5), "ok"),
        (write(2, 1, 6), "ok"),
        (read(2, 1, 0), "value 6 from 2"),
        (offer(2), "polls 1"),
        (prepare(2, 0), "yes 2"),
        (decide(2), "commit 2"),
        (learn(2, 0), "ok"),
        (learn(2, 0), "refused 17"),
        (apply(0), "applied 2"),
        (read(1, 1, 0), "refused 13"),
        (write(1, 1, 9), "ok"),
        (read(1, 1, 0), "value 9 from 1"),
        (offer(1), "polls 1"),
        (prepare(1, 0), "no overtaken 0"),
        (prepare(1, 0), "refused 17"),
        (decide(1), "abort"),
        (learn(1, 0), "ok"),
    ]);
}

#[test]
fn a_cancelled_update_is_engaged_until_its_abort_is_learned() {
    expect(&[
        (make(1, &[1]), "ok"),
        (begin_update(), "t 1"),
        (write(1, 0, 5), "ok"),
        (offer(1), "polls 1"),
        (prepare(1, 0), "yes 1"),
        (cancel(1), "ok"),
        (cancel(1), "refused 11"),
        (begin_update(), "t 2"),
        (write(2, 0, 6), "ok"),
        (offer(2), "polls 1"),
        (prepare(2, 0), "refused 18"),
        (apply(0), "refused 21"),
        (learn(1, 0), "ok"),
        (apply(0), "refused 20"),
        (prepare(2, 0), "yes 2"),
    ]);
}

#[test]
fn a_shelf_is_full_after_four_versions_and_a_roll_is_not() {
    let mut steps = vec![(make(1, &[1, 1]), "ok")];
    let answers = [
        ["t 1", "yes 1", "commit 1", "applied 1"],
        ["t 2", "yes 2", "commit 2", "applied 2"],
        ["t 3", "yes 3", "commit 3", "applied 3"],
        ["t 4", "yes 4", "commit 4", "applied 4"],
    ];
    for (transaction, [begun, yes, commit, applied]) in (1..).zip(answers) {
        steps.push((begin_update(), begun));
        steps.push((write(transaction, 1, 5), "ok"));
        steps.push((offer(transaction), "polls 1"));
        steps.push((prepare(transaction, 0), yes));
        steps.push((decide(transaction), commit));
        steps.push((learn(transaction, 0), "ok"));
        steps.push((apply(0), applied));
    }
    steps.push((begin_update(), "t 5"));
    steps.push((write(5, 0, 6), "ok"));
    steps.push((write(5, 1, 6), "ok"));
    steps.push((offer(5), "polls 1"));
    let mut over_the_roll = steps.clone();
    steps.push((prepare(5, 0), "no place 1"));
    steps.push((decide(5), "abort"));
    expect_over::<Shelf>(&steps);
    over_the_roll.push((prepare(5, 0), "yes 5"));
    over_the_roll.push((decide(5), "commit 5"));
    expect_over::<Roll>(&over_the_roll);
}

#[test]
fn the_first_check_that_fails_refuses() {
    expect(&[
        (begin_update(), "refused 8"),
        (vec![1, 2], "refused 7"),
        (make(0, &[1]), "refused 1"),
        (make(9, &[1]), "refused 1"),
        (make(1, &[]), "refused 1"),
        (make(1, &[0]), "refused 1"),
        (make(1, &[2]), "refused 1"),
        (make(8, &[1; 65]), "refused 1"),
        (make(8, &[128; 64]), "ok"),
        (make(0, &[1]), "refused 8"),
        (read(1, 64, 8), "refused 2"),
        (begin_search(), "t 1"),
        (read(0, 64, 8), "refused 2"),
        (read(1, 64, 8), "refused 3"),
        (read(1, 64, 7), "refused 4"),
        (read(1, 63, 6), "refused 5"),
        (write(1, 64, 6), "refused 4"),
        (write(1, 63, 6), "refused 11"),
        (finish(1), "ok"),
        (read(1, 63, 6), "refused 5"),
        (read(1, 63, 7), "refused 11"),
        (learn(1, 0), "refused 11"),
        (begin_update(), "t 2"),
        (offer(2), "polls 0"),
        (prepare(2, 7), "refused 16"),
        (decide(2), "commit 0"),
        (learn(2, 7), "refused 16"),
        (apply(8), "refused 3"),
        (apply(7), "refused 20"),
    ]);
}
