//! Item 5 of document 02: which part of the control record, worked by hand.

use super::{add, control, put};
use crate::batch::{apply, RECORD};
use crate::text::SPACE;

type Control = [u8; RECORD];

/// What a batch of one right A record and a control record comes to.
fn answer(control: Control) -> u64 {
    let batch = [add("00000025"), control].concat();
    let (mut master, mut verdicts, mut rejects) = (vec![7; 200], [9], vec![8; 490]);
    let result = apply(
        &mut master,
        0,
        &batch,
        &[],
        2007,
        &mut verdicts,
        &mut rejects,
    );
    if result.is_err() {
        assert!(master.iter().all(|&byte| byte == 7) && verdicts == [9]);
        assert!(rejects.iter().all(|&byte| byte == 8));
    }
    result.err().unwrap_or(0)
}

fn right() -> Control {
    control([0, 1, 0, 25])
}

fn with(mut control: Control, place: usize, text: &str) -> Control {
    put(&mut control, place, text);
    control
}

#[test]
fn one_part() {
    assert_eq!(answer(right()), 0);
    for text in ["CTR", "   ", "RCT", "CT ", "LTC"] {
        assert_eq!(answer(with(right(), 3, text)), 6);
    }
    for text in ["ZZ", "  ", "O ", "00"] {
        assert_eq!(answer(with(right(), 1, text)), 20);
    }
    for place in 6..=45 {
        for text in [" ", "A", "-"] {
            assert_eq!(answer(with(right(), place, text)), 21);
        }
    }
    for place in 46..=245 {
        assert_eq!(answer(with(right(), place, "0")), 21);
    }
}

#[test]
fn bytes_beside_letters_digits_and_spaces() {
    for (place, byte, number) in [
        (1, 0x96, 20),
        (3, 0x83, 6),
        (6, 0xFA, 21),
        (45, 0xEF, 21),
        (46, 0x41, 21),
        (245, 0x00, 21),
    ] {
        let mut control = right();
        control[place - 1] = byte;
        assert_eq!(answer(control), number);
    }
}

#[test]
fn in_order() {
    let (no_ctl, no_state) = (with(right(), 3, "   "), with(right(), 1, "ZZ"));
    assert_eq!(answer(with(no_ctl, 1, "ZZ")), 6);
    assert_eq!(answer(with(no_ctl, 6, " ")), 6);
    assert_eq!(answer(with(no_ctl, 245, "X")), 6);
    assert_eq!(answer(with(no_state, 45, " ")), 20);
    assert_eq!(answer(with(no_state, 46, "X")), 20);
    assert_eq!(answer(with(with(no_ctl, 1, "ZZ"), 6, " ")), 6);
    assert_eq!(answer([SPACE; RECORD]), 6);
}

#[test]
fn before_the_totals() {
    let wrong = control([9, 9, 9, 9]);
    assert_eq!(answer(wrong), 7);
    assert_eq!(answer(control([0, 1, 9, 9])), 8);
    assert_eq!(answer(with(wrong, 100, "X")), 21);
    assert_eq!(answer(with(wrong, 1, "ZZ")), 20);
    assert_eq!(answer(with(wrong, 3, "X")), 6);
    // A total that isn't digits is no count that differs.
    assert_eq!(answer(with(right(), 14, " ")), 21);
}

#[test]
fn behind_the_batch_s_length() {
    let mut none: [u8; 0] = [];
    let batch = &[SPACE; RECORD][..244];
    let result = apply(&mut [], 0, batch, &[], 2007, &mut [], &mut none);
    assert_eq!(result, Err(5));
}
