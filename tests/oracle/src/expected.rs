//! The complete expected answer for a unit file: 01's reader, then the original, whose error texts
//! become 01's numbers and values (`texts`), and whose places are found by altering the unit
//! (`place`), since the original gives none.

mod ask;
mod place;
mod texts;

use crate::answer::{Answer, Refusal, Rooms};
use crate::unit::{Places, Record, Unit};
use crate::unitfile;
use texts::Fault;

pub use ask::{compile, ir};

/// The answer where the buffers have these lengths.
pub fn answer(file: &[u8], rooms: Rooms) -> Answer {
    lowering(file)?.within(rooms)
}

/// The answer where the buffers are long enough.
pub fn lowering(file: &[u8]) -> Answer {
    let (unit, places) = unitfile::read(file)?;
    compile(&unit).map_err(|text| refusal(&unit, &places, &Fault::of(&text)))
}

fn refusal(unit: &Unit, places: &Places, fault: &Fault) -> Refusal {
    let number = fault.number;
    let (place, value) = match number {
        10 => (places.of(place::first_record_at_fault(unit, fault)), 57),
        11 => {
            let record = place::first_record_at_fault(unit, fault);
            (places.of(record), operand_count(unit, record))
        }
        12..=17 | 20 => (places.of(place::first_record_at_fault(unit, fault)), fault.told()),
        18 => (places.of_terminator(place::terminator_with_no_target(unit, fault)), fault.told()),
        19 => (places.of_terminator(place::terminator_out_of_range(unit, fault)), fault.told()),
        _ => unreachable!("the table of texts gives 10 to 20"),
    };
    Refusal { number, place, value }
}

fn operand_count(unit: &Unit, record: Record) -> i64 {
    let instruction = unit.instruction(record).expect("only an instruction has a wrong count");
    instruction.operands.len() as i64
}
