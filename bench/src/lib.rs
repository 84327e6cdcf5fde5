//! What the engine is measured against, and how (docs/PERFORMANCE.md).
//!
//! The programs in `bin/` do the engine's work in plain Rust, where they can by the definitions of
//! `tests/reference`; `bin/driver.rs` times them, and single calls beside those of `plain.rs`.

pub mod before;
pub mod calls;
pub mod cases;
pub mod generate;
pub mod markdown;
pub mod measure;
pub mod plain;
pub mod tables;
