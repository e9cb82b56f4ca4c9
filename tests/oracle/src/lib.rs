//! What the published back end answers for a unit file, in the numbers of docs/01-scope.md, and
//! units to ask about. README.md says how to run it.

pub mod answer;
pub mod backend;
pub mod expected;
pub mod from_paper;
pub mod generate;
pub mod replay;
#[cfg(feature = "shurtenbo")]
pub mod shurtenbo;
pub mod unit;
pub mod unitfile;
pub mod unitwriter;
