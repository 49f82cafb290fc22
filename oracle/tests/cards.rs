//! The independent version of cards, on cards that are written out by hand.

use oracle::cards::{bytes_of, card_of, mend, read, text, write, Block, Reason, Record};

fn record(stamp: u32, last: bool) -> Record {
    Record {
        stamp,
        predicate: 1,
        values: vec![258],
        last,
    }
}

fn block(number: u32, records: &[Record]) -> Block {
    Block {
        number,
        records: records.to_vec(),
    }
}

#[test]
fn a_block_is_as_the_request_lays_it_out() {
    let bytes = bytes_of(&block(258, &[record(5, true)]));
    assert_eq!(bytes.len(), 512);
    assert_eq!(
        bytes[..18],
        [75, 1, 2, 1, 0, 0, 5, 0, 0, 0, 1, 0, 0, 0, 1, 1, 0, 0]
    );
    assert_eq!(bytes[18..30], [2, 1, 0, 0, 0, 0, 0, 0, 0, 0, 0, 0]);
    // 75 + 1 + 2 + 1 + 5 + 1 + 1 + 1 + 2 + 1
    assert_eq!(bytes[510], 90);
}

#[test]
fn a_moment_runs_on_and_a_gap_starts_anew() {
    let card = card_of(&[
        block(0, &[record(5, false)]),
        block(1, &[]),
        block(2, &[record(5, true)]),
        block(9, &[record(6, true)]),
    ]);
    let stretches = read(&card).expect("it is taken");
    assert_eq!(
        text::moments(&stretches),
        "5: 1 258, 1 258\nanew\n6: 1 258\n"
    );
}

#[test]
fn an_open_moment_is_bad_in_its_last_block() {
    let card = card_of(&[block(0, &[record(5, false)]), block(1, &[]), block(3, &[])]);
    assert_eq!(read(&card), Err((0, Reason::Shape)));
}

#[test]
fn mending_twice_is_not_mending_once() {
    let card = card_of(&[block(2, &[record(5, true), record(6, true)])]);
    let once = mend(&card).0;
    assert_eq!(once, card_of(&[block(2, &[record(6, true)])]));
    assert_eq!(mend(&once).0, card_of(&[block(2, &[])]));
}

#[test]
fn zero_and_255_pass_the_check_alike() {
    let mut card = write(&[vec![record(5, true)]]);
    card[2] = 255;
    assert_eq!(read(&card).map(|stretches| stretches.len()), Ok(2));
}

#[test]
fn what_goes_is_listed_with_its_reason() {
    let mut card = card_of(&[
        block(0, &[record(5, true)]),
        block(0, &[record(6, true)]),
        block(1, &[record(7, false)]),
    ]);
    card.extend([75; 100]);
    let list = mend(&card).1;
    assert_eq!(
        text::list(&list),
        "0 kept 0\n1 number 0\n2 kept 1\n3 shape 0\n"
    );
}
