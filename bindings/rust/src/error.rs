//! What turns a call away.
use std::fmt;

/// What a call gives: its answer, or what turned it away.
pub type Result<T> = std::result::Result<T, Error>;

/// The error kinds of the original that the calls use, and one for the numbers that it does not have.
#[derive(Debug, Clone, Copy, PartialEq, Eq)]
pub enum ErrorKind {
    InvalidInput,
    InsufficientData,
    MatrixError,
    DimensionMismatch,
    InvalidParameter,
    Added,
}

/// What turned a call away.
#[derive(Debug, Clone, Copy, PartialEq, Eq)]
pub struct Error {
    /// The number of docs/REFERENCE.md, section 8.
    pub number: u8,
    /// The original's kind.
    pub kind: ErrorKind,
}

impl Error {
    /// What a call's number says: nothing where it is 0.
    pub fn of(number: u8) -> Result<()> {
        match number {
            0 => Ok(()),
            _ => Err(Error { number, kind: told(number).0 }),
        }
    }

    /// What to do about it, in a sentence. A section is one of docs/REFERENCE.md.
    pub fn message(&self) -> &'static str {
        told(self.number).1
    }
}

impl fmt::Display for Error {
    fn fmt(&self, f: &mut fmt::Formatter<'_>) -> fmt::Result {
        write!(f, "refused by {} ({:?}): {}", self.number, self.kind, self.message())
    }
}

impl std::error::Error for Error {}

/// The kind of each number, and what to do about it.
fn told(number: u8) -> (ErrorKind, &'static str) {
    use ErrorKind::*;
    match number {
        1 => (DimensionMismatch, "Give every value its coordinates; look for a well whose place or value is missing."),
        2 => (DimensionMismatch, "Give every node all its coordinates."),
        3 => (InvalidInput, "Name at least one basis; Constant is the plain choice."),
        4 => (Added, "Use the codes of section 1."),
        5 => (InvalidParameter, "Give r as 0 or a small number above it, such as 1e-10."),
        6 => (DimensionMismatch, "Give each code 4 one number a well, column after column, and none where no code is 4."),
        7 => (InsufficientData, "Measure more wells or take fewer columns: Constant and External need a well each, Linear 3, Quadratic 6."),
        8 => (DimensionMismatch, "Give every node one number for each code 4, node after node."),
        9 => (Added, "Spread the nodes over several calls, which changes no node's answer; of wells and columns choose fewer."),
        10 => (Added, "Give t as 0 or a number above it."),
        11 => (Added, "Find the empty or overflown entry and correct it, or leave its well or node out."),
        12 => (Added, "Give the Exponential model a range above zero, or choose another model."),
        13 => (Added, "Give points of one to three axes; with one axis take Ordinary."),
        14 => (InsufficientData, "Give at least two."),
        15 => (Added, "Ask for 1 to 64 bins."),
        16 => (Added, "Write the file anew, and see that it is carried over whole and byte for byte."),
        17 => (Added, "Lend a longer one; 23,328 numbers serve every fit."),
        18 => (Added, "Lend areas of the lengths in sections 1, 10, 11 and 12."),
        19 => (
            MatrixError,
            "Look for two wells at one place (leave one out, or raise r) and for columns that say the same at every well (leave one out).",
        ),
        22 => (Added, "Give the same-spot distance in metres, 2^-52 or more; to write a survey file leave it at 2^-52."),
        _ => (Added, "Name a model by 1 to 4, and a kriging type by 1 or 2."),
    }
}
