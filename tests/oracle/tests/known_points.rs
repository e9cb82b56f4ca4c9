//! 01's known points, with the answers as 01 words them.

use oracle::answer::{hex, Answer, Lowered, Refusal};
use oracle::generate::points::{all, p2};
use oracle::unitfile;
use oracle::unitwriter::write;
use oracle::{expected, from_paper};

/// Both the oracle and 01 a second time must give a point's answer.
fn answer(name: &str) -> Answer {
    let point = all().into_iter().find(|point| point.name == name).expect("a known point");
    let answer = expected::lowering(&point.case.file);
    assert_eq!(answer, from_paper::lowering(&point.case.file), "{name}");
    answer
}

fn lowered(name: &str) -> Lowered {
    answer(name).unwrap_or_else(|refusal| panic!("{name}: {refusal:?}"))
}

fn refused(name: &str) -> Refusal {
    answer(name).expect_err(name)
}

fn slot(lowered: &Lowered, number: usize) -> String {
    hex(&lowered.code[8 * number..][..8])
}

/// The offset field of a slot.
fn distance(lowered: &Lowered, number: usize) -> i16 {
    i16::from_le_bytes([lowered.code[8 * number + 2], lowered.code[8 * number + 3]])
}

#[test]
fn p1_one_block_that_returns_0() {
    let code = "bf16000000000000b7000000000000009500000000000000";
    assert_eq!(hex(&lowered("P1").code), code);
}

#[test]
fn p2_a_lookup_by_an_immediate_key() {
    let slots = [
        "bf16000000000000",
        "1811000000000000",
        "0000000000000000",
        "b702000005000000",
        "7b2af0ff00000000",
        "bfa2000000000000",
        "07020000f0ffffff",
        "8500000001000000",
        "7b0af8ff00000000",
        "79a0f8ff00000000",
        "9500000000000000",
    ];
    let found = lowered("P2");
    assert_eq!(hex(&found.code), slots.concat());
    assert_eq!(found.relocs, [(8, 0)]);
    let (unit, _) = unitfile::read(&write(&p2())).expect("a valid file");
    assert_eq!(unit.maps[0], b"seen");
}

#[test]
fn p3_no_blocks() {
    assert_eq!(hex(&lowered("P3").code), "bf16000000000000");
}

#[test]
fn p4_a_block_that_jumps_to_itself() {
    assert_eq!(slot(&lowered("P4"), 1), "0500ffff00000000");
}

#[test]
fn p5_a_jump_goes_to_the_last_block_with_the_id() {
    let found = lowered("P5");
    assert_eq!((found.slots(), distance(&found, 1)), (6, 2));
}

#[test]
fn p6_the_target_of_the_first_of_two_equal_ids_is_not_reached() {
    let found = refused("P6");
    assert_eq!((found.number, found.value), (18, 2));
    assert_eq!(found.place, 20, "after the head's 12 bytes and the block's 8");
}

#[test]
fn p7_56_variables_and_57() {
    let found = lowered("P7, 56 variables");
    let last_lookup = found.slots() - 2 - 8;
    assert_eq!(slot(&found, last_lookup + 3), "7b2a00fe00000000", "the last scratch cell is −512");
    let found = refused("P7, 57 variables");
    let place_of_the_57th = 12 + 5 + 8 + 56 * 20;
    assert_eq!(found, Refusal { number: 10, place: place_of_the_57th, value: 57 });
}

#[test]
fn p8_immediates_at_the_limits() {
    assert_eq!(slot(&lowered("P8, largest"), 1), "b7000000ffffff7f");
    assert_eq!(slot(&lowered("P8, smallest"), 1), "b700000000000080");
    let found = refused("P8, too large");
    assert_eq!(found, Refusal { number: 12, place: 20, value: 2_147_483_648 });
}

#[test]
fn p9_size_is_judged_before_offset() {
    assert_eq!(slot(&lowered("P9, passes"), 1), "7960ff7f00000000");
    assert_eq!(refused("P9, offset"), Refusal { number: 13, place: 20, value: 32_768 });
    assert_eq!(refused("P9, size before offset"), Refusal { number: 14, place: 20, value: 3 });
}

#[test]
fn p10_both_targets_missing_names_the_false_one() {
    assert_eq!(refused("P10"), Refusal { number: 18, place: 20, value: 8 });
}

#[test]
fn distances_at_the_limits() {
    assert_eq!(distance(&lowered("run only, distance 32,767"), 1), 32_767);
    let found = refused("run only, distance 32,768");
    assert_eq!((found.number, found.place, found.value), (19, 25, 2));

    let found = lowered("distance −32,768");
    assert_eq!(distance(&found, found.slots() - 1), -32_768);
    let found = refused("distance −32,769");
    assert_eq!((found.number, found.value), (19, 1));
}

#[test]
fn a_bad_immediate_in_an_unreached_block_is_no_fault() {
    assert_eq!(lowered("run only, bad immediate in an unreached block").slots(), 3);
}
