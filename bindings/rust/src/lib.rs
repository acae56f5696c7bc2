//! Parses the records that Linux writes for performance events (`perf_event_open(2)`).
//!
//! The names and types are those of `perf-event-data` 0.1.8. A frame is read by a proved library
//! with a C interface, which this crate links statically; the README of this folder names what is
//! tested instead.
//!
//! - [`Record`] is a record of any type, and [`Visitor`] takes one without an enum.
//! - [`parse`] contains the [`Parser`](parse::Parser) and its [`ParseConfig`](parse::ParseConfig).
//! - [`endian`] contains the byte orders.
//! - [`mod@file`] opens files of `perf record`.
//! - [`frames`] and [`read_records`] read all records of bytes or of a reader.
//! - [`sys`] contains structs and numbers of the kernel's header.
//!
//! Byte strings and lists are borrowed from the input: lists only if they are aligned and in this
//! machine's byte order, otherwise they are copied.
//!
//! # A program
//!
//! It prints the names of tasks, and how many samples were lost.
//!
//! ```
//! use perf_event_data::endian::Little;
//! use perf_event_data::parse::{ErrorKind, ParseConfig, ParseResult, Parser};
//! use perf_event_data::Record;
//!
//! /// What `perf_event_open(2)` wrote: a COMM record, and a LOST_SAMPLES record.
//! const DATA: &[u8] = b"\
//!     \x03\0\0\0\0\0\x18\0\x05\0\0\0\x05\0\0\0test\0\0\0\0\
//!     \x0d\0\0\0\0\0\x10\0\x08\0\0\0\0\0\0\0";
//!
//! fn lines(data: &[u8]) -> ParseResult<Vec<String>> {
//!     let mut parser = Parser::new(data, ParseConfig::<Little>::default());
//!     let mut lines = Vec::new();
//!     loop {
//!         match parser.parse() {
//!             Ok(Record::Comm(comm)) => {
//!                 lines.push(format!("{} {}", comm.tid, comm.comm.escape_ascii()));
//!             }
//!             Ok(Record::LostSamples(record)) => lines.push(format!("{} lost", record.lost)),
//!             Ok(_) => {}
//!             Err(error) if error.kind() == ErrorKind::Eof => return Ok(lines),
//!             Err(error) => return Err(error),
//!         }
//!     }
//! }
//!
//! fn main() -> ParseResult<()> {
//!     let lines = lines(DATA)?;
//!     println!("{}", lines.join("\n"));
//!     assert_eq!(lines, ["5 test", "8 lost"]);
//!     Ok(())
//! }
//! ```
//!
//! # The archive
//!
//! A program is linked with the archive of the library, which is `libperf_event_data.a` of an
//! installed copy, or `libperf_event_c.a` as the proof writes it. Its folder is that in the variable
//! `PERF_EVENT_DATA_LIB_DIR`, that of `pkg-config`, or `lib/TARGET` of this crate. Without it, `cargo
//! check` and `cargo doc` pass, and `cargo build` tells what is absent.

#![warn(missing_docs)]
#![deny(unsafe_op_in_unsafe_fn)]

// its macros are for the modules below
#[macro_use]
mod fields;
mod config;
mod data_source;
mod debug;
pub mod endian;
mod error;
mod ffi;
pub mod file;
mod flags;
mod flat;
mod frame;
pub mod parse;
mod parsebuf;
mod read;
mod records;
mod sample;
pub mod sys;
mod visitor;

pub use crate::data_source::DataSource;
pub use crate::flags::*;
pub use crate::frame::{frames, read_records, BadFrame, Frame, FrameIter, FramesEnd, Run, RunEnd};
pub use crate::read::{GroupEntry, GroupIter, Read, ReadGroup, ReadValue, TryFromGroupError};
pub use crate::records::*;
pub use crate::sample::{BranchEntry, Registers, Sample};
pub use crate::visitor::{RecordMetadata, Visitor};
