//! The allocator: that of the program.

/// All memory comes from it; the value says only that it may be asked.
#[derive(Clone, Copy, Debug, PartialEq, Eq)]
pub struct Global;

/// There is no memory.
#[derive(Clone, Copy, Debug, PartialEq, Eq)]
pub struct AllocError;
