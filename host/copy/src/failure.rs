//! Why a copy was not made.

/// A message for people and the exit status.
#[derive(Debug, PartialEq, Eq)]
pub struct Failure {
    pub status: u8,
    pub message: String,
}

impl Failure {
    /// Status 2: the command line asks for what cannot be.
    pub fn wrong(message: String) -> Failure {
        Failure { status: 2, message }
    }

    /// Status 1: unreadable slots, or a file that cannot be read or written.
    pub fn could_not(message: String) -> Failure {
        Failure { status: 1, message }
    }
}
