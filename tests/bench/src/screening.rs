//! The screen over codes that are hard for it, in sizes that double.

use std::hint::black_box;
use std::time::Duration;

use oracle::shurtenbo::screen;

use crate::clock;
use crate::codes::{Code, Shape, SHAPES};

const SPEND: Duration = Duration::from_millis(100);
const SLOTS: [usize; 4] = [16_384, 32_768, 65_536, 131_072];

/// A screen whose work is linear doubles its time with the slots.
const MOST_GROWTH: f64 = 2.5;

pub fn print() {
    println!("\n### The screen over hard codes, µs\n");
    println!(
        "| code | answer | 16,384 slots | 32,768 | growth | 65,536 | growth | 131,072 | growth |"
    );
    println!("|---|---|{}", "--:|".repeat(7));
    let mut worst: f64 = 0.0;
    for (shape, times) in SHAPES.iter().zip(clock::sweep(SHAPES, times)) {
        let growth = |at: usize| times[at] / times[at - 1];
        print!("| {} | {} | {:.0} |", shape.name, answer(shape), times[0] / 1e3);
        (1..SLOTS.len()).for_each(|at| print!(" {:.0} | {:.2} |", times[at] / 1e3, growth(at)));
        println!();
        worst = worst.max(growth(3));
    }
    let verdict = if worst <= MOST_GROWTH { "at most" } else { "ABOVE" };
    println!(
        "\nGrowth from 65,536 to 131,072 slots: {worst:.2} at worst, {verdict} {MOST_GROWTH}."
    );
}

/// Yes, or the refusal's number, for the longest code of a shape.
fn answer(shape: &Shape) -> String {
    let Code { bytes, relocs } = (shape.of)(SLOTS[3]);
    match screen(&bytes, &relocs, &mut vec![0; SLOTS[3]]) {
        [0, ..] => "yes".to_string(),
        [number, ..] => number.to_string(),
    }
}

fn times(shape: &Shape) -> [f64; 4] {
    let codes = SLOTS.map(|slots| (shape.of)(slots));
    let [a, b, c, d] = &mut SLOTS.map(|slots| vec![0; slots]);
    let call = |code: &Code, table: &mut [u16]| {
        black_box(screen(black_box(&code.bytes), &code.relocs, table));
    };
    clock::best(
        SPEND,
        [
            &mut || call(&codes[0], a),
            &mut || call(&codes[1], b),
            &mut || call(&codes[2], c),
            &mut || call(&codes[3], d),
        ],
    )
}
