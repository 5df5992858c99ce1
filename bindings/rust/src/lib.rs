//! Finds a closed ring of edges in a line of edges, starting at any of its edges and with at most k edges that differ.
//!
//! An outline that was stored twice shows as the same ring of edges at a second place, often begun at another vertex, often with a few
//! edges changed. The search is a proved library with a C interface, `outlines.h`. This crate calls it and searches nothing itself. It
//! has no dependencies, needs no `std` and allocates nothing: an answer goes into areas that the caller lends.
//!
//! ```
//! use outlines::{scan, Search};
//!
//! fn main() -> Result<(), outlines::Refused> {
//!     let search = Search { ring: b"aa", line: b"aaa", allowance: 0 };
//!     let mut words = vec![0; search.room()];
//!     let counts = scan(search, &mut words)?;
//!     for finding in counts.findings(&words) {
//!         println!("start {} distance {}", finding.start, finding.distance);
//!     }
//!     Ok(())
//! }
//! ```
//!
//! # Terms
//!
//! - A *ring* has m edges, one byte each. A *line* has n bytes: edges and boundary marks. Places count from 0.
//! - The bytes 0 to 254 are *edge codes*. A search only asks whether two of them are equal; [`scan_two_way`] also reads the codes of its
//!   ring. Byte 255 is a *mark* ([`MARK`]): it stands in a line where one boundary ends and the next begins.
//! - If i + m ≤ n, the line's places i to i + m − 1 are the *window* at i. Place i is a *start* if that window holds no mark. So nothing
//!   is found across a mark.
//! - Turning the ring by a *rotation* r, 0 ≤ r < m, brings its edge (r + q) mod m to place q.
//! - The *distance* of a start under a rotation counts the places at which the window and the turned ring differ.
//! - A start is a *finding* if its distance is at most k, the *allowance*, for at least one rotation. [`Finding`] has its four numbers.
//! - A *silence* is a reviewer's word that a finding is known. A report hides the findings that its *book* of silences names: [`Silence`].
//!
//! One stored copy can be several findings. An exact copy away from the line's ends and from marks gives at least 2 k + 1: a window that
//! begins s edges before or after it has a distance of at most s.
//!
//! # The calls
//!
//! | call | what it does |
//! |---|---|
//! | [`scan`] | lists the findings by a quick search that jumps |
//! | [`survey`] | lists the same findings by computing the distance at every place |
//! | [`report`] | the scan, without the findings that a book hides |
//! | [`scan_closed`], [`survey_closed`], [`report_closed`] | the same for a line that is one closed boundary |
//! | [`scan_two_way`] | the scan for the ring, and for the ring drawn in the other direction |
//! | [`pack`], [`unpack`] | write and read a book of silences |
//! | [`import_vertices`] | makes the edge bytes of a boundary from its vertices |
//!
//! Every call takes every input. It is accepted and returns its counts, or it is refused with a [`Refused`] and has written nothing. An
//! area may be larger than needed; what lies behind the last word or byte written keeps its value. The module [`raw`] has the C
//! declarations themselves.
//!
//! # From vertices to a report
//!
//! ```
//! use outlines::{MARK, Refused, SILENCE_BYTES, Search, Silence, import_vertices, pack, report, scan};
//!
//! /// The edge bytes of a boundary. Its vertices are pairs of numbers, north before east.
//! fn edges(vertices: &[i32]) -> Result<Vec<u8>, Refused> {
//!     let mut edges = vec![0; vertices.len() / 2];
//!     import_vertices(vertices, &mut edges)?;
//!     Ok(edges)
//! }
//!
//! fn main() -> Result<(), Refused> {
//!     // A cell with two boundaries: a triangle, and the outline of the ring, moved and begun at another vertex.
//!     let ring = edges(&[0, 0, 40, 0, 40, 25, 60, 25, 60, 70, 0, 70])?;
//!     let mut line = edges(&[0, 0, 5, 0, 5, -3])?;
//!     line.push(MARK);
//!     line.extend(edges(&[1040, -475, 1060, -475, 1060, -430, 1000, -430, 1000, -500, 1040, -500])?);
//!
//!     let search = Search { ring: &ring, line: &line, allowance: 2 };
//!     let mut words = vec![0; search.room()];
//!     let counts = scan(search, &mut words)?;
//!     let copy = counts.findings(&words).next().expect("the copy");
//!     assert_eq!((counts.found, copy.start, copy.rotation, copy.distance), (1, 4, 2, 0));
//!
//!     // A reviewer signs it, as it is: the ceiling is its distance, which is below 256. From now on the cell's report hides it.
//!     let (cell, ring_number) = (7, 2);
//!     let silence = Silence { cell, ring_number, start: copy.start, ceiling: copy.distance as u16 };
//!     let mut book = [0; SILENCE_BYTES];
//!     pack(&silence.words(), &mut book)?;
//!     let counts = report(cell, ring_number, search, &book, &mut words)?;
//!     assert_eq!((counts.found, counts.hidden, counts.shown()), (1, 1, 0));
//!     Ok(())
//! }
//! ```
//!
//! # Threads
//!
//! The library keeps no state and takes no lock. Calls may run at the same time, on any threads. Two calls may read the same ring, line
//! or book; the borrow checker keeps their areas apart.
//!
//! # Stack
//!
//! A call allocates nothing. The most bytes of stack that the library needs, on x86-64 and aarch64, without the frame of this
//! crate's function:
//!
//! | call | bytes |
//! |---|---|
//! | `scan` | 6,000 |
//! | `scan_closed` | 6,000 |
//! | `report` | 6,000 |
//! | `report_closed` | 6,000 |
//! | `scan_two_way` | 6,400 |
//! | `survey` | 3,224 |
//! | `survey_closed` | 3,288 |
//! | `pack` | 200 |
//! | `unpack` | 320 |
//! | `import_vertices` | 400 |
//!
//! # Linking
//!
//! `make install PREFIX=/some/folder`, in the library's repository, installs the library, and this crate as
//! `/some/folder/share/outlines/rust`. Depend on it by its path:
//!
//! ```toml
//! [dependencies]
//! outlines = { path = "/some/folder/share/outlines/rust" }
//! ```
//!
//! Build with `PKG_CONFIG_PATH=/some/folder/lib/pkgconfig`: the crate's build script asks pkg-config for the folder of `liboutlines.a` and
//! links it statically. If the variable `OUTLINES_ARCHIVE` is set, it names that folder instead, and pkg-config is not needed.

#![no_std]
#![deny(missing_docs)]
#![deny(unsafe_op_in_unsafe_fn)]

mod closed;
mod counts;
mod findings;
mod limits;
mod open;
pub mod raw;
mod refusals;
mod search;
mod silences;
mod two_way;
mod vertices;

pub use closed::{report_closed, scan_closed, survey_closed};
pub use counts::Counts;
pub use findings::{Finding, Findings};
pub use limits::*;
pub use open::{report, scan, survey};
pub use refusals::{Refusal, Refused};
pub use search::Search;
pub use silences::{Silence, Silences, pack, unpack};
pub use two_way::{Pass, Passes, scan_two_way};
pub use vertices::import_vertices;
