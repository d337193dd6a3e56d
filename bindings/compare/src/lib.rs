//! The proved crates against document 01 in plain Rust: every question is asked of both sides with the same inputs. The
//! proved side is asked twice, by the functions that its archive exports and by the Rust crate over them.

mod check;
pub mod exported;
pub mod inputs;
mod lent;
pub mod proved;
pub mod questions;
// The Rust crate's own file: safe functions over the archive's, which tell more than the crate hands on.
#[allow(dead_code, reason = "the crate's own helpers are not needed here")]
#[allow(
    improper_ctypes,
    reason = "the crate's refusal, which may get more members, is the archive's as it stands beside it"
)]
#[path = "../../rust/src/raw.rs"]
mod raw;
mod shrink;

pub use check::{check, Run};
pub use lent::Lent;
// The file above finds the refusal at this crate's root.
use tockplover::Refusal;
