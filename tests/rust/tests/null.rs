//! An empty slice may come as a null pointer.
#![cfg(feature = "product")]

use std::ptr::{null, null_mut};

use nizumokage_tests::Answer;
use nizumokage_tests::product::raw::{nz_make, nz_read, nz_run, nz_verify, nz_write};

/// A plan without tasks.
const BARE: [u8; 6] = [1, 0, 3, 2, 3, 3];
const GOOD: Answer = Answer { number: 0, side: 0, place: 0, value: 0 };
const EMPTY_PLAN: Answer = Answer { number: 1, side: 1, place: 0, value: 0 };

#[test]
fn null_for_an_empty_plan() {
    let no_bytes = null::<u8>();
    let answers = unsafe {
        [
            nz_verify(no_bytes, 0, no_bytes, 0),
            nz_make(no_bytes, 0, null_mut(), 0),
            nz_write(no_bytes, 0, null(), 0, null_mut(), 0),
            nz_read(no_bytes, 0, no_bytes, 0, null_mut(), 0),
            nz_run(no_bytes, 0, no_bytes, 0, 0, null(), 0, null_mut(), 0),
        ]
    };
    assert_eq!(answers, [EMPTY_PLAN; 5]);
}

#[test]
fn null_for_everything_else() {
    let (plan, length) = (BARE.as_ptr(), BARE.len());
    let answers = unsafe {
        [
            nz_verify(plan, length, null(), 0),
            nz_make(plan, length, null_mut(), 0),
            nz_write(plan, length, null(), 0, null_mut(), 0),
            nz_read(plan, length, null(), 0, null_mut(), 0),
            nz_run(plan, length, null(), 0, 1, null(), 0, null_mut(), 0),
        ]
    };
    assert_eq!(answers, [GOOD; 5]);
}

#[test]
fn null_where_something_is_needed() {
    let plan = [&BARE[..], &[2, 0, 2, 0, 1]].concat();
    let (plan, length) = (plan.as_ptr(), plan.len());
    let refused = |number, side| Answer { number, side, place: 0, value: 0 };
    let answers = unsafe {
        [
            nz_verify(plan, length, null(), 0),
            nz_make(plan, length, null_mut(), 0),
            nz_read(plan, length, null(), 0, null_mut(), 0),
        ]
    };
    assert_eq!(answers, [refused(9, 2), refused(8, 0), refused(9, 2)]);
}
