//! canboat's own Rust, unchanged, and what drives it: see README.md and FORMAT.md.
pub mod alone;
pub mod blocks;
pub mod compare;
pub mod differences;
pub mod edges;
pub mod generate;
pub mod run;
pub mod script;
pub mod text;

#[allow(dead_code, unused_imports)]
mod canboat {
    include!(concat!(env!("OUT_DIR"), "/canboat.rs"));
}
// canboat's files name themselves `crate::engine`.
pub use canboat::engine;
