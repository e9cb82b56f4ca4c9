//! The time from a unit file's bytes to code, by this back end and by the published one, and the
//! screen's time over hard codes. README.md says how to run it.

mod clock;
mod codes;
mod probes;
mod published;
mod screening;
mod units;
mod unitwise;

fn main() {
    unitwise::print();
    screening::print();
}
