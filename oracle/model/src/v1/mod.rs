//! The rules of the earlier block format (02, Q-4), as the readings of 02 settle them in points 29 to 41: written from these and
//! 01 alone. What 01 says of trailers, offsets, flags, times, limits and the order of rows holds here too and is used from there:
//! "a V1 block stores an offset for each row", so what 01 calls a restart is a row here, and its region is the row's place.
pub mod builder;
#[cfg(test)]
mod cases;
pub mod check;
pub mod cursor;
pub mod row;

/// "A row takes at least 13 bytes, row 0 at least 14, so at most 5,042 rows."
pub const LEAST_ROW: usize = 13;
pub const MOST_ROWS: usize = 5_042;
/// "Offset 0 to 65,535."
pub const OFFSET_LIMIT: usize = 65_535;
