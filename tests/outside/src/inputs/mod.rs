//! The inputs of a run: texts of every kind, sound and damaged, and tables with the calls made on them.

pub mod arguments;
pub mod calls;
pub mod changes;
pub mod damage;
pub mod far;
pub mod files;
pub mod gadgets;
pub mod known;
pub mod noted;
pub mod plans;
pub mod pools;
pub mod runs;
pub mod searches;
pub mod sums;
pub mod tables;
pub mod texts;
pub mod walks;
pub mod words;

/// Numbers that no limit of the scope allows, some with low bits that would be allowed if they were all that is read.
pub const HUGE: [usize; 6] = [
    usize::MAX,
    usize::MAX - 1,
    1 << 63,
    (1 << 32) + 1,
    (1 << 32) + 2,
    (1 << 16) + 3,
];
