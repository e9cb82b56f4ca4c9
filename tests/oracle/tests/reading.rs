//! The reader: what it accepts is written back byte for byte, and what it refuses it refuses with
//! the number and place that 01 gives.

use oracle::answer::Refusal;
use oracle::generate::damage::rich;
use oracle::generate::{stream, systematic};
use oracle::unitfile::read;
use oracle::unitwriter::{head, record, records, write};

fn refused(file: &[u8]) -> (u32, u32) {
    let Refusal { number, place, value } = read(file).expect_err("a refusal");
    assert_eq!(value, 0, "no reading refusal has a value");
    (number, place)
}

#[test]
fn what_is_written_is_read_back() {
    let (unit, places) = read(&write(&rich())).expect("a valid file");
    assert_eq!(unit, rich());
    let first_instruction = 12 + (4 + 6) + 4 + 8;
    assert_eq!(places.0[0][0], first_instruction);
    assert_eq!(places.0[0][1], first_instruction + 20 + 3 * 9);
}

#[test]
fn what_is_read_is_written_back() {
    let mut accepted = 0;
    for case in systematic().chain(stream(2).take(50_000)) {
        if let Ok((unit, _)) = read(&case.file) {
            assert!(write(&unit) == case.file, "a file has one form");
            accepted += 1;
        }
    }
    assert!(accepted > 10_000);
}

#[test]
fn each_refusal_has_its_place() {
    let file = write(&rich());
    let records = records(&rich());
    let place = |record: usize| records[..record].concat().len() as u32;
    let last = records.len() - 1;

    assert_eq!(refused(&vec![0; 262_145]), (1, 0));
    assert_eq!(refused(&[]), (2, 0));
    assert_eq!(refused(&[8, 0, 1]), (2, 0));
    assert_eq!(refused(&file[..file.len() - 1]), (2, place(last)));
    assert_eq!(refused(&file[..place(last) as usize]), (2, place(last)));
    assert_eq!(refused(&record(1, &[1, 0, 0, 0, 0, 0, 0])), (3, 0));
    assert_eq!(refused(&record(2, &[1, 0, 0, 0, 0, 0, 0, 0])), (3, 0));
    assert_eq!(refused(&head(1, 65, 0)), (3, 0));
    assert_eq!(refused(&head(1, 0, 1_025)), (3, 0));
    assert_eq!(refused(&[&file[..], &[0]].concat()), (4, file.len() as u32));

    // A map where a block is due, and the other way round.
    let mut swapped = records.clone();
    swapped.swap(2, 3);
    assert_eq!(refused(&swapped.concat()), (4, place(2)));

    // The second of two equal names is at fault.
    let mut equal = records.clone();
    equal[2] = equal[1].clone();
    assert_eq!(refused(&equal.concat()), (5, place(2)));
}

#[test]
fn a_record_that_passes_the_end_is_judged_by_that_alone() {
    // Wrong kind, wrong length, and cut: 2 goes first.
    let file = [head(1, 1, 0), vec![9, 0, 7, 0, 1]].concat();
    assert_eq!(refused(&file), (2, 12));
    // Whole, of the wrong kind and with a name too long: 4 before 5.
    let file = [head(1, 1, 0), record(3, &[0; 65])].concat();
    assert_eq!(refused(&file), (4, 12));
}
