//! The library, the tuned and the plain implementation, called alike and
//! compared: every answer, every word of a table or fault list, every byte of
//! an output, and what stands behind each of them. `cargo test --release` runs
//! it on all cores.

mod field;
mod files;
mod inputs;
mod judging;
mod lent;
mod limits;
mod pad;
mod pointing;
mod pull;
mod read;
mod rewrite;
mod sides;
mod typed;
mod write;

/// The fewest cases each test has to try; a case is one call, compared.
mod least {
    pub const EVERY_BYTE: u64 = 24 * 81 * 256;
    pub const FILLED: u64 = 80_000;
    pub const ANGLES: u64 = 2 * 2 * 25 * 256;
    pub const FIGURES: u64 = (6 * 40 + 2 * 10 + 2 * 16) * 256;
    pub const REFERENCES: u64 = 243;
    pub const RECEIVERS: u64 = 9 * 3 * 12 * 12 + 6 + 36 + 216 + 1_296;
    pub const TWO_BYTES: u64 = 150_000;
    pub const DAMAGED: u64 = 40_000;
    pub const CUT: u64 = 10_000;
    pub const ORDER: u64 = 20_000;
    pub const READ_RECORDS: u64 = 300_000;
    pub const CHARACTERS: u64 = 13 * 80 * 95;
    pub const BEGINNINGS: u64 = 350_000;
    pub const FIELDS: u64 = 1_000_000;
    pub const WRITE_WORDS: u64 = 130_000;
    pub const WRITE_TEXTS: u64 = 189_000;
    pub const WRITE_MIXED: u64 = 300_000;
    pub const PAD_ENDS: u64 = 230_000;
    pub const PAD_LENGTHS: u64 = 440_000;
    pub const PAD_DISTANCES: u64 = 170_000;
    pub const PAD_STRINGS: u64 = 87_000;
    pub const PAD_WINDOWS: u64 = 250_000;
    pub const PAD_PUT_IN: u64 = 600_000;
    pub const PAD_CUT: u64 = 640_000;
    pub const PAD_RANDOM: u64 = 340_000;
    pub const PULL_LENT: u64 = 95_000;
    pub const PULL_RANDOM: u64 = 175_000;

    /// Form, references, rewrite, read and pull each try these families.
    const OF_FILES: u64 = EVERY_BYTE
        + FILLED
        + ANGLES
        + FIGURES
        + REFERENCES
        + RECEIVERS
        + TWO_BYTES
        + DAMAGED
        + CUT
        + ORDER;
    const ALL: u64 = 5 * OF_FILES
        + READ_RECORDS
        + 3 * CHARACTERS
        + BEGINNINGS
        + 2 * BEGINNINGS / 5
        + FIELDS
        + WRITE_WORDS
        + WRITE_TEXTS
        + WRITE_MIXED
        + PAD
        + PULL;
    const PAD: u64 = PAD_ENDS
        + PAD_LENGTHS
        + PAD_DISTANCES
        + PAD_STRINGS
        + PAD_WINDOWS
        + PAD_PUT_IN
        + PAD_CUT
        + PAD_RANDOM;
    const PULL: u64 = PULL_LENT + PULL_RANDOM;
    const _: () = assert!(ALL > 10_000_000 && PAD > 1_000_000);
    const _: () = assert!(OF_FILES + PULL > 1_000_000);
}
