//! Stand-in for the crate `log`: takes the arguments and says nothing.
//! The arguments are still type-checked, and evaluated under `if false`.
pub enum Level {
    Error,
    Warn,
    Info,
    Debug,
    Trace,
}
#[macro_export]
macro_rules! log { ($l:expr, $($a:tt)*) => { if false { let _ = $l; let _ = format!($($a)*); } } }
#[macro_export]
macro_rules! error { ($($a:tt)*) => { if false { let _ = format!($($a)*); } } }
#[macro_export]
macro_rules! warn { ($($a:tt)*) => { if false { let _ = format!($($a)*); } } }
#[macro_export]
macro_rules! info { ($($a:tt)*) => { if false { let _ = format!($($a)*); } } }
#[macro_export]
macro_rules! debug { ($($a:tt)*) => { if false { let _ = format!($($a)*); } } }
#[macro_export]
macro_rules! trace { ($($a:tt)*) => { if false { let _ = format!($($a)*); } } }
