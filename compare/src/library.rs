//! The library's calls as the comparison and the benchmark make them: the answer is the raw one, whether or not its refusal is in
//! the table, and an empty slice can be passed as a null pointer. Else the crate `outlines` has safe functions (`check::trips`).

use outlines::raw::{self, Answer, TwoWay};
use outlines::Search;
use std::ptr;

pub enum Request<'a> {
    Survey(Search<'a>, &'a mut [u32]),
    Scan(Search<'a>, &'a mut [u32]),
    Report(u32, u16, Search<'a>, &'a [u8], &'a mut [u32]),
    /// The closed calls are lent the join area as well, before the words.
    SurveyClosed(Search<'a>, &'a mut [u8], &'a mut [u32]),
    ScanClosed(Search<'a>, &'a mut [u8], &'a mut [u32]),
    ReportClosed(u32, u16, Search<'a>, &'a [u8], &'a mut [u8], &'a mut [u32]),
    ImportVertices(&'a [i32], &'a mut [u8]),
    Pack(&'a [u32], &'a mut [u8]),
    Unpack(&'a [u8], &'a mut [u32]),
}

/// How an empty slice is passed. Rust never has a null slice, but a caller in C may.
#[derive(Clone, Copy, PartialEq, Eq)]
pub enum Empty {
    AsLent,
    Null,
}

impl Empty {
    fn read<T>(self, slice: &[T]) -> *const T {
        if self == Empty::Null && slice.is_empty() {
            ptr::null()
        } else {
            slice.as_ptr()
        }
    }

    fn write<T>(self, slice: &mut [T]) -> *mut T {
        if self == Empty::Null && slice.is_empty() {
            ptr::null_mut()
        } else {
            slice.as_mut_ptr()
        }
    }
}

/// Makes one call and returns its answer as it is, whether or not its refusal is in the table.
pub fn ask(request: Request, empty: Empty) -> Answer {
    // Sound: each pointer comes from a slice that is borrowed until the call returns, and is passed with that slice's
    // own length, so everything that the library may touch is alive. What it may write is borrowed mutably, hence
    // shared with nothing else. It keeps no pointer. A null pointer is passed only with the length 0.
    match request {
        Request::Survey(Search { ring, line, allowance }, words) => unsafe {
            let (r, l) = (empty.read(ring), empty.read(line));
            raw::outlines_survey(r, ring.len(), l, line.len(), allowance, empty.write(words), words.len())
        },
        Request::Scan(Search { ring, line, allowance }, words) => unsafe {
            let (r, l) = (empty.read(ring), empty.read(line));
            raw::outlines_scan(r, ring.len(), l, line.len(), allowance, empty.write(words), words.len())
        },
        Request::Report(cell, number, Search { ring, line, allowance }, book, words) => unsafe {
            let (r, l, b, w) = (empty.read(ring), empty.read(line), empty.read(book), empty.write(words));
            let (rs, ls, bs, ws) = (ring.len(), line.len(), book.len(), words.len());
            raw::outlines_report(cell, number, r, rs, l, ls, allowance, b, bs, w, ws)
        },
        Request::SurveyClosed(Search { ring, line, allowance }, join, words) => unsafe {
            let (r, l, j, w) = (empty.read(ring), empty.read(line), empty.write(join), empty.write(words));
            raw::outlines_survey_closed(r, ring.len(), l, line.len(), allowance, j, join.len(), w, words.len())
        },
        Request::ScanClosed(Search { ring, line, allowance }, join, words) => unsafe {
            let (r, l, j, w) = (empty.read(ring), empty.read(line), empty.write(join), empty.write(words));
            raw::outlines_scan_closed(r, ring.len(), l, line.len(), allowance, j, join.len(), w, words.len())
        },
        Request::ReportClosed(cell, number, Search { ring, line, allowance }, book, join, words) => unsafe {
            let (r, l, b, j, w) =
                (empty.read(ring), empty.read(line), empty.read(book), empty.write(join), empty.write(words));
            let (rs, ls, bs, js, ws) = (ring.len(), line.len(), book.len(), join.len(), words.len());
            raw::outlines_report_closed(cell, number, r, rs, l, ls, allowance, b, bs, j, js, w, ws)
        },
        Request::ImportVertices(numbers, edges) => unsafe {
            raw::outlines_import_vertices(empty.read(numbers), numbers.len(), empty.write(edges), edges.len())
        },
        Request::Pack(words, bytes) => unsafe {
            raw::outlines_pack(empty.read(words), words.len(), empty.write(bytes), bytes.len())
        },
        Request::Unpack(book, words) => unsafe {
            raw::outlines_unpack(empty.read(book), book.len(), empty.write(words), words.len())
        },
    }
}

/// The same for the two-way scan, whose answer has other counts.
pub fn ask_two_way(search: Search, words: &mut [u32], empty: Empty) -> TwoWay {
    let Search { ring, line, allowance } = search;
    let (r, l, w) = (empty.read(ring), empty.read(line), empty.write(words));
    // Sound: as in `ask`.
    unsafe { raw::outlines_scan_two_way(r, ring.len(), l, line.len(), allowance, w, words.len()) }
}
