//! The deposit shelf from Rust: the proved library called safely, and the
//! same rules in plain Rust.
//!
//! `plain` is written from the rule paper, the requests and docs/LAYOUT.md
//! alone and exists to be compared with: it shares no code with the proved
//! program, so that both giving the same answer says something about both.
//! `tuned` is form, references and rewrite once more, written for speed, for
//! the benchmark.

pub mod calls;
pub mod files_tried;
pub mod generate;
pub mod library;
pub mod plain;
pub mod published;
pub mod sample;
pub mod sha256;
pub mod specimens;
#[cfg(feature = "standin")]
mod standin;
pub mod tuned;
