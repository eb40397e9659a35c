//! What the command ends with.

/// In rising order: the worst of several is the one that counts.
#[derive(Clone, Copy, Debug, PartialEq, Eq, PartialOrd, Ord)]
pub enum Status {
    Accepted = 0,
    Refused = 1,
    Trouble = 2,
}
