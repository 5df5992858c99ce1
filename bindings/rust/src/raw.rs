//! The declarations of `outlines.h`, as they are.
//!
//! The functions of the crate root call these and need no `unsafe`. Use this module only to pass a null pointer or an
//! uninitialised area. The functions of the crate root document what each call does, under its name without `outlines_`.
//!
//! # Safety
//!
//! These conditions hold for all ten calls. Each pointer goes with the length behind it, which counts elements.
//!
//! - A pointer is aligned for its type and valid for its length: for reads if it is `*const`, for writes if it is `*mut`. A
//!   pointer with length 0 is never followed, so it may be null or dangling.
//! - An area behind a `*mut` overlaps nothing else that is passed to the same call. Inputs may overlap one another.
//! - While the call runs, no other thread writes its inputs, and none reads or writes its areas.
//!
//! Nothing else is required: a call takes every number, every length and every content, and refuses what it cannot answer. An area
//! may be uninitialised, because a call reads nothing there that it has not written. Afterwards only what the call wrote is
//! initialised. A call keeps no pointer and never unwinds.
//!
//! ```
//! use core::mem::MaybeUninit;
//! use core::ptr;
//! use outlines::raw::outlines_scan;
//!
//! let (ring, line) = (b"aa", b"aaa");
//! let mut words = [MaybeUninit::<u32>::uninit(); 8];
//! let lent = words.as_mut_ptr().cast();
//! // SAFETY: each pointer goes with the length of its array, and nothing else refers to `words`.
//! let answer = unsafe { outlines_scan(ring.as_ptr(), 2, line.as_ptr(), 3, 0, lent, 8) };
//! assert_eq!((answer.refusal, answer.found), (0, 2));
//! // SAFETY: two findings were written, four words each.
//! let written = words.map(|word| unsafe { word.assume_init() });
//! assert_eq!(written, [0, 0, 0, 2, 1, 0, 0, 2]);
//!
//! // SAFETY: as above; a null pointer goes with length 0.
//! let answer = unsafe { outlines_scan(ring.as_ptr(), 2, ptr::null(), 0, 0, ptr::null_mut(), 0) };
//! assert_eq!((answer.refusal, answer.found), (0, 0));
//! ```

/// `struct outlines_answer`: what each call but the two-way scan returns. A refused call returns 0 in every count.
#[repr(C)]
#[derive(Clone, Copy, Debug, Default, PartialEq, Eq, Hash)]
pub struct Answer {
    /// 0 if the call is accepted, else the number of a [`Refusal`](crate::Refusal).
    pub refusal: u32,
    /// The place of the refusal; 0 if the call is accepted.
    pub place: u32,
    /// Searches and reports: findings, hidden ones included. `pack` and `unpack`: records. `import_vertices`: edges.
    pub found: u64,
    /// The two reports: findings that the book hides. 0 from the other calls.
    pub hidden: u64,
    /// Searches and reports: looks. 0 from `pack`, `unpack` and `import_vertices`.
    pub looks: u64,
}

/// `struct outlines_two_way`: what the two-way scan returns. A refused call returns 0 in every count.
#[repr(C)]
#[derive(Clone, Copy, Debug, Default, PartialEq, Eq, Hash)]
pub struct TwoWay {
    /// 0 if the call is accepted, else the number of a [`Refusal`](crate::Refusal).
    pub refusal: u32,
    /// The place of the refusal; 0 if the call is accepted.
    pub place: u32,
    /// Findings of the ring.
    pub forward_found: u64,
    /// Looks of the scan for the ring.
    pub forward_looks: u64,
    /// Findings of the reversed ring.
    pub backward_found: u64,
    /// Looks of the scan for the reversed ring.
    pub backward_looks: u64,
}

unsafe extern "C" {
    /// The plain survey: see [`survey`](crate::survey).
    ///
    /// # Safety
    ///
    /// The [conditions of this module](self#safety).
    pub fn outlines_survey(
        ring: *const u8,
        ring_length: usize,
        line: *const u8,
        line_length: usize,
        k: usize,
        words: *mut u32,
        words_length: usize,
    ) -> Answer;

    /// The quick scan: see [`scan`](crate::scan).
    ///
    /// # Safety
    ///
    /// The [conditions of this module](self#safety).
    pub fn outlines_scan(
        ring: *const u8,
        ring_length: usize,
        line: *const u8,
        line_length: usize,
        k: usize,
        words: *mut u32,
        words_length: usize,
    ) -> Answer;

    /// The report: see [`report`](crate::report).
    ///
    /// # Safety
    ///
    /// The [conditions of this module](self#safety).
    pub fn outlines_report(
        cell: u32,
        ring_number: u16,
        ring: *const u8,
        ring_length: usize,
        line: *const u8,
        line_length: usize,
        k: usize,
        book: *const u8,
        book_length: usize,
        words: *mut u32,
        words_length: usize,
    ) -> Answer;

    /// The two-way scan: see [`scan_two_way`](crate::scan_two_way).
    ///
    /// # Safety
    ///
    /// The [conditions of this module](self#safety).
    pub fn outlines_scan_two_way(
        ring: *const u8,
        ring_length: usize,
        line: *const u8,
        line_length: usize,
        k: usize,
        words: *mut u32,
        words_length: usize,
    ) -> TwoWay;

    /// The plain survey of a closed line: see [`survey_closed`](crate::survey_closed).
    ///
    /// # Safety
    ///
    /// The [conditions of this module](self#safety).
    pub fn outlines_survey_closed(
        ring: *const u8,
        ring_length: usize,
        line: *const u8,
        line_length: usize,
        k: usize,
        join: *mut u8,
        join_length: usize,
        words: *mut u32,
        words_length: usize,
    ) -> Answer;

    /// The quick scan of a closed line: see [`scan_closed`](crate::scan_closed).
    ///
    /// # Safety
    ///
    /// The [conditions of this module](self#safety).
    pub fn outlines_scan_closed(
        ring: *const u8,
        ring_length: usize,
        line: *const u8,
        line_length: usize,
        k: usize,
        join: *mut u8,
        join_length: usize,
        words: *mut u32,
        words_length: usize,
    ) -> Answer;

    /// The report of a closed line: see [`report_closed`](crate::report_closed).
    ///
    /// # Safety
    ///
    /// The [conditions of this module](self#safety).
    pub fn outlines_report_closed(
        cell: u32,
        ring_number: u16,
        ring: *const u8,
        ring_length: usize,
        line: *const u8,
        line_length: usize,
        k: usize,
        book: *const u8,
        book_length: usize,
        join: *mut u8,
        join_length: usize,
        words: *mut u32,
        words_length: usize,
    ) -> Answer;

    /// Packs silences into a book: see [`pack`](crate::pack).
    ///
    /// # Safety
    ///
    /// The [conditions of this module](self#safety).
    pub fn outlines_pack(words: *const u32, words_length: usize, bytes: *mut u8, bytes_length: usize) -> Answer;

    /// Unpacks a book into words: see [`unpack`](crate::unpack).
    ///
    /// # Safety
    ///
    /// The [conditions of this module](self#safety).
    pub fn outlines_unpack(book: *const u8, book_length: usize, words: *mut u32, words_length: usize) -> Answer;

    /// Makes edge bytes from vertices: see [`import_vertices`](crate::import_vertices).
    ///
    /// # Safety
    ///
    /// The [conditions of this module](self#safety).
    pub fn outlines_import_vertices(
        numbers: *const i32,
        numbers_length: usize,
        edges: *mut u8,
        edges_length: usize,
    ) -> Answer;
}
