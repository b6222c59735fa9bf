//! The calls as C has them, over lent slices: nothing is allocated, and the answer is the archive's own.
//! `include/gorbihesh.h` says what each takes, promises and refuses. This module alone knows the layout of
//! the calls; nothing outside it sees a pointer.

use crate::Refusal;
use std::ffi::{CStr, c_char};

/// The answer of a call.
#[repr(C)]
#[derive(Clone, Copy, Debug, PartialEq, Eq)]
pub struct Answer {
    /// 0, or the number of a [`Refusal`]; the other members but `place` are then 0.
    pub refusal: u32,
    /// The bytes written to the output.
    pub length: u32,
    /// The records picked, of [`select`]; else 0.
    pub count: u32,
    /// The rounds made, of [`rewrite`] and [`rewrite_strict`], the last unchanged one included; else 0.
    pub rounds: u32,
    /// Where the fault is, of [`parse`] refused with 4 to 17: the bytes of the text before it. Else 0.
    pub place: u32,
}

impl Answer {
    /// The answer, unless it is a refusal.
    ///
    /// # Errors
    /// Why nothing was done.
    pub fn done(self) -> Result<Self, Refusal> {
        Refusal::from_number(self.refusal).map_or(Ok(self), Err)
    }
}

/// What a text is parsed by, as bytes that nobody has checked; [`crate::Setup`] makes sound ones.
#[derive(Clone, Copy, Debug)]
pub struct Setup<'a> {
    /// What joins two clauses with nothing between them: 0 for OR, 1 for AND.
    pub operator: u8,
    /// The analyzer of every field that `fields` does not name.
    pub analyzer: u8,
    /// The field of clauses that name none.
    pub field: &'a [u8],
    /// Entries one behind the other, each one byte analyzer, one byte length of the name, the name.
    pub fields: &'a [u8],
}

mod archive {
    use super::{Answer, c_char};

    unsafe extern "C" {
        /// The version of the archive that is linked; see [`crate::VERSION`].
        pub safe fn gorbihesh_version() -> u32;
        /// The bytes of room that [`super::parse`] needs.
        pub safe fn gorbihesh_parse_room() -> usize;
        /// The bytes of room that [`super::rewrite`] needs.
        pub safe fn gorbihesh_rewrite_room() -> usize;
        /// The bytes of room that [`super::rewrite_strict`] needs.
        pub safe fn gorbihesh_rewrite_strict_room() -> usize;
        /// The bytes of room that [`super::select`] needs.
        pub safe fn gorbihesh_select_room() -> usize;

        pub safe fn gorbihesh_words(refusal: u32) -> *const c_char;

        pub fn gorbihesh_parse(
            operator: u8,
            analyzer: u8,
            field: *const u8,
            field_len: usize,
            fields: *const u8,
            fields_len: usize,
            text: *const u8,
            text_len: usize,
            out: *mut u8,
            out_len: usize,
            room: *mut u8,
            room_len: usize,
        ) -> Answer;

        pub fn gorbihesh_rewrite(
            query: *const u8,
            query_len: usize,
            out: *mut u8,
            out_len: usize,
            room: *mut u8,
            room_len: usize,
        ) -> Answer;

        pub fn gorbihesh_rewrite_strict(
            query: *const u8,
            query_len: usize,
            out: *mut u8,
            out_len: usize,
            room: *mut u8,
            room_len: usize,
        ) -> Answer;

        pub fn gorbihesh_select(
            query: *const u8,
            query_len: usize,
            list: *const u8,
            list_len: usize,
            rows: *mut u8,
            rows_len: usize,
            room: *mut u8,
            room_len: usize,
        ) -> Answer;
    }
}

pub use archive::gorbihesh_parse_room as parse_room;
pub use archive::gorbihesh_rewrite_room as rewrite_room;
pub use archive::gorbihesh_rewrite_strict_room as rewrite_strict_room;
pub use archive::gorbihesh_select_room as select_room;
pub use archive::gorbihesh_version as version;

/// A refusal's number in a technician's words.
///
/// # Panics
/// Where the archive breaks its promise that words are ASCII.
#[must_use]
pub fn words(refusal: u32) -> &'static str {
    // SAFETY: the archive's texts end in a NUL, are never NULL and stay as long as the program runs.
    let text = unsafe { CStr::from_ptr(archive::gorbihesh_words(refusal)) };
    text.to_str().expect("the archive's words are ASCII")
}

/// Parses a text into a stored query.
pub fn parse(setup: Setup, text: &[u8], out: &mut [u8], room: &mut [u8]) -> Answer {
    // SAFETY: each pointer and length is of one slice; slices that are written overlap no other.
    unsafe {
        archive::gorbihesh_parse(
            setup.operator,
            setup.analyzer,
            setup.field.as_ptr(),
            setup.field.len(),
            setup.fields.as_ptr(),
            setup.fields.len(),
            text.as_ptr(),
            text.len(),
            out.as_mut_ptr(),
            out.len(),
            room.as_mut_ptr(),
            room.len(),
        )
    }
}

/// Rewrites a stored query.
pub fn rewrite(query: &[u8], out: &mut [u8], room: &mut [u8]) -> Answer {
    // SAFETY: as in `parse`.
    unsafe {
        archive::gorbihesh_rewrite(
            query.as_ptr(),
            query.len(),
            out.as_mut_ptr(),
            out.len(),
            room.as_mut_ptr(),
            room.len(),
        )
    }
}

/// Rewrites a stored query strictly: Should clauses are never dropped as duplicates while the minimum is above 1, so that the
/// result picks what the query picks, at every minimum.
pub fn rewrite_strict(query: &[u8], out: &mut [u8], room: &mut [u8]) -> Answer {
    // SAFETY: as in `parse`.
    unsafe {
        archive::gorbihesh_rewrite_strict(
            query.as_ptr(),
            query.len(),
            out.as_mut_ptr(),
            out.len(),
            room.as_mut_ptr(),
            room.len(),
        )
    }
}

/// Picks the records of a list for which a stored query is true; their numbers go to `rows`, four bytes
/// each, big-endian.
pub fn select(query: &[u8], list: &[u8], rows: &mut [u8], room: &mut [u8]) -> Answer {
    // SAFETY: as in `parse`.
    unsafe {
        archive::gorbihesh_select(
            query.as_ptr(),
            query.len(),
            list.as_ptr(),
            list.len(),
            rows.as_mut_ptr(),
            rows.len(),
            room.as_mut_ptr(),
            room.len(),
        )
    }
}
