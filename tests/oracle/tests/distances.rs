//! The units with long jumps do have jumps at both limits, of both forms.

use oracle::expected;
use oracle::generate::distances;
use std::collections::HashSet;

const JA: u8 = 0x05;
const JNE: u8 = 0x55;

#[test]
fn jumps_of_both_forms_at_both_limits() {
    let mut seen = HashSet::new();
    let mut refused = HashSet::new();
    for case in distances::all() {
        match expected::lowering(&case.file) {
            Ok(lowered) => seen.extend(
                lowered
                    .code
                    .chunks(8)
                    .map(|slot| (slot[0], i16::from_le_bytes([slot[2], slot[3]]))),
            ),
            Err(refusal) => drop(refused.insert(refusal.number)),
        }
    }
    for form in [JA, JNE] {
        for distance in [i16::MIN, i16::MIN + 1, i16::MAX - 1, i16::MAX] {
            assert!(seen.contains(&(form, distance)), "{form:#x} by {distance}");
        }
    }
    assert_eq!(refused, HashSet::from([18, 19]));
}

#[test]
fn a_body_has_the_slots_asked_for() {
    for slots in (2..60).chain([32_765, 32_766, 32_767, 32_768]) {
        let file = oracle::unitwriter::write(&distances::forward(slots + 1));
        if let Ok(lowered) = expected::lowering(&file) {
            let around = 1 + 1 + 1 + 2;
            assert_eq!(lowered.slots(), slots + around);
        }
    }
}
