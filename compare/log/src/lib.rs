//! Stands in for the crate `log`, every level off: the arguments are type-checked and never evaluated.
#[macro_export]
macro_rules! off {
    ($($t:tt)*) => { if false { let _ = format!($($t)*); } };
}
pub use {off as trace, off as debug, off as info, off as warn, off as error};
