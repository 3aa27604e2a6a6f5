//! In what form calls are lent memory today. A request that changes it changes the line here.

/// What memory is lent as: a byte for each cell (02, S-7).
pub type MemoryElement = u8;
