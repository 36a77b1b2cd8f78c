//! What the library answers, by the names of its C header. [`Error`](crate::Error) stands for those that are neither yes nor no.

pub const YES: i32 = 1;
pub const NO: i32 = 0;
pub const NO_MEMORY: i32 = -1;
pub const OTHER_ROOT: i32 = -2;
pub const OTHER_FAMILY: i32 = -3;
pub const OTHER_HASH: i32 = -4;
pub const OTHER_LENGTHS: i32 = -5;
pub const OTHER_KEY: i32 = -6;
pub const OTHER_VALUE: i32 = -7;
pub const OTHER_AGREED: i32 = -8;
pub const OTHER_KIND: i32 = -9;
pub const OTHER_ENCODING: i32 = -10;
