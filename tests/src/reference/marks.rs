//! docs/PROTOCOL.md, "Start-of-message marks": the code sizes and their marks.

use super::refusal::{Refusal, CODE_SIZE};

pub const CODE_SIZES: [usize; 4] = [5, 6, 7, 8];
/// The marks of these sizes, in their order.
pub const MARKS: [u8; 4] = [0b0001, 0b1010, 0b1011, 0b0010];

/// What a state says of marks.
#[derive(Clone, Copy, Debug, PartialEq, Eq)]
pub struct Marks {
    pub in_use: bool,
    /// The code size given. Without marks nobody judges it.
    pub size: usize,
}

impl Marks {
    pub const NOT_IN_USE: Marks = Marks {
        in_use: false,
        size: 0,
    };

    /// Those of a session that is opened with a code size, or with none.
    pub fn open(code_size: Option<usize>) -> Result<Marks, Refusal> {
        let with_size = |size| Marks { in_use: true, size };
        let marks = code_size.map_or(Marks::NOT_IN_USE, with_size);
        match marks.are_spoiled() {
            true => Err(CODE_SIZE),
            false => Ok(marks),
        }
    }

    /// With marks, a size other than 5 to 8.
    pub fn are_spoiled(self) -> bool {
        self.in_use && !CODE_SIZES.contains(&self.size)
    }
}

/// The mark of a code size, 5 to 8.
pub fn mark(size: usize) -> u8 {
    MARKS[size - CODE_SIZES[0]]
}

pub fn is_mark(service: u8) -> bool {
    MARKS.contains(&service)
}

#[cfg(test)]
mod tests;
