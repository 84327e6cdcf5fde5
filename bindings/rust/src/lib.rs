//! The proved placement engine, for Rust.
//!
//! A *description* is a string of bytes that declares clouds, data, services, which service reads
//! and writes which datum, and which data must never meet on one cloud (docs/FORMAT.md has all of
//! it). Clouds, data and services have labels, a level and two marks each, and the rules say which
//! [`Label`] has to cover which. A *placement* puts each block, that is each datum and service, on
//! a cloud. The engine tells which clouds a block may use, its *mask*; which placements are secure,
//! what each costs, and lists the options that an editor has, cheapest first, one *row* for each,
//! with what of its cost is for storage, for transfers and for cpu: its *bill*, which any other
//! secure placement has too. A secure placement also has a *picture*, a text that Graphviz draws.
//!
//! ```
//! use panel::{Description, Placement};
//!
//! # fn main() -> Result<(), panel::Refusal> {
//! let bytes = include_bytes!("../../../examples/interview.bin");
//! let interview = Description::read(bytes)?;
//! assert_eq!((interview.clouds(), interview.blocks(), interview.edges()), (2, 5, 4));
//!
//! let lines: Vec<String> = interview.rows().map(|row| row.to_string()).collect();
//! assert_eq!(
//!     lines,
//!     [
//!         "2820 11111 1320 0 1500",
//!         "2850 11110 1330 20 1500",
//!         "2970 11000 1370 100 1500",
//!         "3000 11001 1380 120 1500",
//!         "3120 11011 1420 200 1500",
//!         "3150 11010 1430 220 1500",
//!     ]
//! );
//!
//! // With its transcode on cloud 0, the interview would be copied to a store that does not cover
//! // its label.
//! let refusal = interview.judge(&Placement::from([1, 0, 0, 0, 0])).unwrap_err();
//! assert_eq!((refusal.number, refusal.place), (14, 0));
//! # Ok(())
//! # }
//! ```
//!
//! A description can be built by names ([`builder`]) and taken apart again ([`parts`]).
//!
//! # Linking
//!
//! The engine is the static library `libpanel.a`, for x86-64 Linux. The build looks for it in
//! `target/staticlib` of the repository; the environment variable `PANEL_LIB_DIR` names another
//! folder, and must be an absolute path.
//!
//! # What may go wrong
//!
//! No call has a precondition, and none panics: any bytes will do, and what is wrong with them
//! comes back as a [`Refusal`] that says what, where, and what to mend; its [`Reason`] is there to
//! match on. Once [`Description::read`] has accepted a description, nothing about it can be refused
//! any more, only placements can. If a block may not stand where a placement has it (number 13),
//! [`Description::why_not`] tells which test fails.
//!
//! # Threads
//!
//! Nothing is kept between calls, here or in the library: any number of threads may call at once,
//! on one [`Description`] or on several. All types of this crate are `Send` and `Sync`. The
//! library's calls take less than 32,768 bytes of stack each (measured, not proved).
//! [`Description::list`], [`Description::census`] and [`Description::draw`] walk over all
//! candidates, up to 65,536, each time that they are called: a window that must not wait calls them
//! on another thread.
//!
//! ```
//! use std::thread;
//!
//! use panel::Description;
//!
//! # fn main() -> Result<(), panel::Refusal> {
//! let interview = Description::read(include_bytes!("../../../examples/interview.bin"))?;
//! let (rows, census) = thread::scope(|scope| {
//!     let rows = scope.spawn(|| interview.list());
//!     let census = scope.spawn(|| interview.census());
//!     (rows.join(), census.join())
//! });
//! assert_eq!(rows.map_or(0, |rows| rows.len()), 6);
//! assert_eq!(census.map_or(0, |census| census.options), 6);
//! # Ok(())
//! # }
//! ```

#![warn(missing_docs)]

pub mod builder;
pub mod calls;
mod description;
mod ffi;
mod label;
pub mod parts;
mod reason;
mod refusal;
mod standing;
mod values;

pub use description::{Description, Rows};
pub use label::{Label, NoLabel};
pub use reason::Reason;
pub use refusal::Refusal;
pub use standing::{Misplaced, Standing};
pub use values::{Bill, Census, Cursor, NoPlacement, Placement, Row, Transfer};

/// The program of the README compiles.
#[cfg(doctest)]
#[doc = include_str!("../README.md")]
struct Readme;
