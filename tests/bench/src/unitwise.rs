//! Both back ends over the units.

use std::hint::black_box;
use std::time::Duration;

use oracle::backend::BackEnd;
use oracle::shurtenbo::Shurtenbo;
use oracle::unitfile;

use crate::clock;
use crate::published::{self, Refused};
use crate::units::{self, Case};

const SPEND: Duration = Duration::from_millis(50);

/// Room for any code: 38 bytes of a unit become 13 slots at most.
const CODE_ROOM: usize = 1 << 20;
const RELOC_ROOM: usize = 1 << 16;

/// Nanoseconds of this back end and of the published one.
type Times = [f64; 2];

pub fn print() {
    let plain: Vec<Case> = units::small().into_iter().chain(units::typical()).collect();
    head("Small and typical units", &SPEEDS);
    for (case, times) in plain.iter().zip(all_times(&plain, true)) {
        row(case, times, &speeds(case, times));
    }

    let families = units::families();
    head("Up to the largest units", &[&SPEEDS[..], &["growth"]].concat());
    let mut before: Option<(&str, f64)> = None;
    for (case, times) in families.iter().zip(all_times(&families, true)) {
        let growth = match before {
            Some((name, time)) if name == case.name => format!("{:.2}", times[0] / time),
            _ => String::new(),
        };
        row(case, times, &[&speeds(case, times)[..], &[growth]].concat());
        before = Some((&case.name, times[0]));
    }

    let refused = units::refused();
    head("Refused units", &[]);
    for (case, times) in refused.iter().zip(all_times(&refused, false)) {
        row(case, times, &[]);
    }
}

const SPEEDS: [&str; 2] = ["ours, MB/s", "Rust, MB/s"];

fn speeds(case: &Case, times: Times) -> [String; 2] {
    times.map(|time| format!("{:.0}", case.file.len() as f64 * 1e3 / time))
}

fn head(title: &str, more: &[&str]) {
    let columns = ["unit", "bytes", "blocks", "instructions", "ours, µs", "Rust, µs", "ratio"];
    let columns = [&columns, more].concat();
    println!("\n### {title}\n\n| {} |", columns.join(" | "));
    println!("|---|{}", "--:|".repeat(columns.len() - 1));
}

fn row(case: &Case, [ours, published]: Times, more: &[String]) {
    let Case { name, file, blocks, instructions } = case;
    print!("| {name} | {} | {blocks} | {instructions} |", file.len());
    print!(" {:.3} | {:.3} | {:.2} |", ours / 1e3, published / 1e3, published / ours);
    println!("{}", more.iter().map(|cell| format!(" {cell} |")).collect::<String>());
}

fn all_times(cases: &[Case], accepted: bool) -> Vec<Times> {
    clock::sweep(cases, |case| times(case, accepted))
}

fn times(case: &Case, accepted: bool) -> Times {
    let file = &case.file[..];
    let mut code = vec![0; CODE_ROOM];
    let mut relocs = vec![0; RELOC_ROOM];
    agree(case, accepted, &mut code, &mut relocs);
    let mut ours = || {
        black_box(Shurtenbo.compile(black_box(file), &mut code, &mut relocs));
    };
    let mut published = || {
        let _ = black_box(published::compile(black_box(file)));
    };
    clock::best(SPEND, [&mut ours, &mut published])
}

/// A time is worth nothing unless both do what they should.
fn agree(case: &Case, accepted: bool, code: &mut [u8], relocs: &mut [u32]) {
    let [number, first, second] = Shurtenbo.compile(&case.file, code, relocs);
    match published::compile(&case.file) {
        Ok(program) => {
            assert!(accepted && number == 0, "{}: refused {number}", case.name);
            let (unit, _) = unitfile::read(&case.file).expect("the published one has read it");
            let found: Vec<(u64, &[u8])> = relocs[..2 * second as usize]
                .chunks_exact(2)
                .map(|pair| (u64::from(pair[0]), &unit.maps[pair[1] as usize][..]))
                .collect();
            let wanted: Vec<(u64, &[u8])> = program
                .relocs
                .iter()
                .map(|reloc| (reloc.offset, reloc.symbol.as_bytes()))
                .collect();
            assert!(program.code == code[..8 * first as usize], "{}: code differs", case.name);
            assert!(found == wanted, "{}: relocations differ", case.name);
        }
        Err(Refused::Reading { number: wanted, place }) => {
            let found = (number, first);
            assert!(!accepted && found == (i64::from(wanted), place as i64), "{}", case.name);
        }
        Err(Refused::Lowering(text)) => {
            assert!(!accepted && number >= 10, "{}: {text}", case.name);
        }
    }
}
