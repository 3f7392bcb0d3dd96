//! A packing list for memory: which jobs may share a Linux machine, by what the kernel says that they take.
//!
//! What is called here is the proved static library; this crate hands texts and cells over and gives its answers the
//! names that they have in the library, so that a caller can switch one call at a time. What a call answers is written
//! down in docs/SMAPS.md, docs/PACKING.md and docs/REFUSALS.md.
//!
//! ```no_run
//! use jomukahu::{measure, PackingList, Source};
//!
//! let text = std::fs::read("/proc/self/smaps").unwrap();
//! let mut list = PackingList::new(1 << 30);
//! let measured = measure(Source::held(&text)).unwrap();
//! match list.admit(7, 16 << 20, measured) {
//!     Ok(()) => println!("used {}", list.used()),
//!     Err((refusal, _measure)) => println!("{refusal}"),
//! }
//! ```
//!
//! It is built against crates/capi/out/libcapi.a, which `rt lib` in crates/capi builds: by cargo, or by
//! `rustc --edition 2021 --crate-type rlib --crate-name jomukahu -L native=crates/capi/out rust/src/lib.rs`.
#![deny(unsafe_code)]

mod boundary;
mod list;
mod measure;
mod refusal;
mod source;

pub use list::{Bounds, LimitValue, Noted, PackingList, View};
pub use measure::{measure, measure_joined, measure_recording, Figures, Measure};
pub use refusal::Refusal;
pub use source::{Part, Source};
