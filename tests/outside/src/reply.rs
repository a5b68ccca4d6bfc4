//! What one call leaves behind, in one form for the engine and for the model, so that the two can be compared whole.

use std::fmt;

/// No entry is lent more numbers than check_size.
pub const MOST_NUMBERS: usize = 6;

#[derive(Clone, PartialEq, Eq)]
pub struct Reply {
    pub status: u64,
    /// In the header's order; none for a number that stands as it was lent.
    pub numbers: [Option<u64>; MOST_NUMBERS],
    /// The lent buffer up to the last element that was altered, a byte or a wire number each.
    pub written: Vec<u16>,
    /// The numbers of sets that are lent to check_size, up to the last that was altered.
    pub sets: Vec<u64>,
    /// Whether all other memory stands as it was: what was lent for reading, and the guards around all that was lent.
    pub rest_kept: bool,
}

impl Reply {
    /// A refusal alters nothing.
    pub fn refused(status: u64) -> Reply {
        Reply {
            status,
            numbers: [None; MOST_NUMBERS],
            written: Vec::new(),
            sets: Vec::new(),
            rest_kept: true,
        }
    }

    pub fn answered(numbers: &[u64], written: Vec<u16>) -> Reply {
        let mut reply = Reply {
            written,
            ..Reply::refused(0)
        };
        for (place, number) in numbers.iter().enumerate() {
            reply.numbers[place] = Some(*number);
        }
        reply
    }
}

impl fmt::Display for Reply {
    fn fmt(&self, out: &mut fmt::Formatter) -> fmt::Result {
        write!(out, "status {}, numbers", self.status)?;
        for number in &self.numbers {
            match number {
                Some(number) => write!(out, " {number}")?,
                None => write!(out, " -")?,
            }
        }
        write!(out, ", written {:?}", self.written)?;
        if !self.sets.is_empty() {
            write!(out, ", sets {:?}", self.sets)?;
        }
        if !self.rest_kept {
            write!(out, ", MEMORY ALTERED that was not lent for writing")?;
        }
        Ok(())
    }
}
