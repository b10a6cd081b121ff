//! How a run ended.
use std::fmt;

/// The exit status of the program, which the library gives too.
#[derive(Debug, Clone, Copy, PartialEq, Eq, Hash)]
pub enum Status {
    /// The script was run to its end, and no line was refused.
    Done,
    /// The same, and some line was refused.
    BadLines,
    /// An option is refused: nothing was run.
    Usage,
    /// The fuel was spent: the transcript ends with the line `fuel`.
    Fuel,
    /// A read failed; of the program alone.
    ReadFault,
    /// A write failed: the transcript is a front of the whole one.
    WriteFault,
    /// Memory was refused: the transcript is a front of the whole one.
    NoMemory,
    /// The script has more than 16,777,216 bytes: the whole lines within that limit were run.
    TooLong,
}

impl Status {
    /// The status with this number.
    pub fn of(number: i32) -> Option<Status> {
        use Status::*;
        let all = [Done, BadLines, Usage, Fuel, ReadFault, WriteFault, NoMemory, TooLong];
        usize::try_from(number).ok().and_then(|at| all.get(at).copied())
    }

    /// Its number, the program's exit status.
    pub fn number(self) -> i32 {
        self as i32
    }
}

impl fmt::Display for Status {
    fn fmt(&self, out: &mut fmt::Formatter<'_>) -> fmt::Result {
        write!(out, "{self:?}")
    }
}
