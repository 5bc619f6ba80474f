//! Stands in for the crate `libc`: the numbers that the Rust names. Those of the block calls are the same on every system.
pub const ENOENT: i32 = 2;
pub const EIO: i32 = 5;
pub const EFAULT: i32 = 14;
pub const EEXIST: i32 = 17;
pub const ENOTDIR: i32 = 20;
pub const EINVAL: i32 = 22;
pub const ENOSPC: i32 = 28;
pub const EROFS: i32 = 30;
pub const ENOTEMPTY: i32 = 39;
pub const ENODATA: i32 = 61;
