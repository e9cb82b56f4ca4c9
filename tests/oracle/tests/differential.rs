//! The oracle and 01 a second time agree; and the comparison sees a back end that is wrong.

use oracle::answer::Rooms;
use oracle::backend::{compare, BackEnd, FromPaper};
use oracle::generate::{stream, Case};
use oracle::{expected, from_paper};

fn judge(backend: &dyn BackEnd, case: &Case) -> Result<(), String> {
    let lowering = expected::lowering(&case.file);
    let rooms = case.rooms(&lowering);
    let expected = lowering.and_then(|lowered| lowered.within(rooms));
    compare(backend, &case.file, rooms, &expected)
}

#[test]
fn the_two_agree() {
    for case in stream(3).take(40_000) {
        judge(&FromPaper, &case).expect("no difference");
    }
}

type Spoil = fn(unit: &[u8], code: &mut [u8], relocs: &mut [u32], answer: &mut [i64; 3]);

/// Spoils what a right back end did.
struct Wrong(Spoil);

impl BackEnd for Wrong {
    fn name(&self) -> &'static str {
        "wrong"
    }

    fn compile(&self, unit: &[u8], code: &mut [u8], relocs: &mut [u32]) -> [i64; 3] {
        let mut answer = FromPaper.compile(unit, code, relocs);
        (self.0)(unit, code, relocs, &mut answer);
        answer
    }
}

#[test]
fn a_wrong_back_end_is_seen() {
    let wrong = [
        Wrong(|_, _, _, answer| answer[1] += 1),
        Wrong(|_, _, _, answer| answer[2] -= i64::from(answer[0] != 0)),
        Wrong(|_, code, _, _| code.iter_mut().rev().take(1).for_each(|byte| *byte = 0)),
        Wrong(|_, _, relocs, _| relocs.iter_mut().rev().take(1).for_each(|cell| *cell = 0)),
        // Writes before it knows that it will refuse.
        Wrong(|_, code, _, answer| {
            if answer[0] != 0 && !code.is_empty() {
                code[0] = 0xbf;
            }
        }),
        // Writes the code although the relocations have no room.
        Wrong(|unit, code, _, answer| {
            if let (22, Ok(lowered)) = (answer[0], from_paper::lowering(unit)) {
                code[..lowered.code.len()].copy_from_slice(&lowered.code);
            }
        }),
    ];
    for backend in &wrong {
        assert!(stream(4).take(20_000).any(|case| judge(backend, &case).is_err()));
    }
}

#[test]
fn rooms_are_judged_code_first() {
    let file = oracle::unitwriter::write(&oracle::generate::points::p2());
    let refused = |code, relocs| {
        let refusal = expected::answer(&file, Rooms { code, relocs }).expect_err("too short");
        (refusal.number, refusal.place, refusal.value)
    };
    assert_eq!(refused(87, 0), (21, 0, 88));
    assert_eq!(refused(88, 1), (22, 0, 2));
    assert!(expected::answer(&file, Rooms { code: 88, relocs: 2 }).is_ok());
}
