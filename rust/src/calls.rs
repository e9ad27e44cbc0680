//! The calls of `include/cddlseq.h`.
use std::os::raw::c_void;

pub const OK: u32 = 0;
pub const FAILED: u32 = 1;
pub const REFUSED: u32 = 2;
pub const NO_MEMORY: u32 = 3;
pub const BAD_LIMITS: u32 = 5;
pub const NO_ROOM: u32 = 8;
pub const ITEM: u32 = 9;
pub const ENDED: u32 = 10;
pub const BAD_WORD: u32 = 14;

#[repr(C)]
#[derive(Default)]
pub struct Refusal {
    pub code: u32,
    pub offset: usize,
    pub line: usize,
    pub column: usize,
}

#[repr(C)]
#[derive(Clone, Copy, Default)]
pub struct End {
    pub items: u64,
    pub offset: u64,
    pub cause: u32,
    pub place: u64,
}

/// What an item may have.
#[repr(C)]
#[derive(Clone, Copy, Debug, PartialEq, Eq)]
pub struct Limits {
    /// How many containers may be round a place of it, from 1 to 256.
    pub depth: u32,
    /// How many bytes, from 1 to 67,108,864.
    pub item_bytes: u32,
    /// How many questions may be asked about it.
    pub steps: u64,
}

/// A handle of a specification, or of a stream that comes in pieces; or of nothing.
#[repr(C)]
pub struct Handle {
    at: *mut c_void,
}

impl Handle {
    pub fn of_nothing() -> Handle {
        Handle {
            at: std::ptr::null_mut(),
        }
    }
}

type Maker = unsafe extern "C" fn(*const u8, usize, *const u8, usize, *const Limits, *mut Refusal, *mut Handle) -> u32;

/// The handle that a call has hold what it makes of a text, or what it answers.
pub fn make(call: Maker, text: &[u8], root: &str, limits: &Limits) -> Result<Handle, (u32, Refusal)> {
    let mut refusal = Refusal::default();
    let mut handle = Handle::of_nothing();
    // SAFETY: each slice is as long as is said, and what is written to is this function's own.
    let status = unsafe {
        call(
            text.as_ptr(),
            text.len(),
            root.as_ptr(),
            root.len(),
            limits,
            &mut refusal,
            &mut handle,
        )
    };
    if status == OK {
        Ok(handle)
    } else {
        Err((status, refusal))
    }
}

extern "C" {
    pub fn cddlseq_explain(
        text: *const u8,
        text_length: usize,
        root: *const u8,
        root_length: usize,
        file: *const u8,
        file_length: usize,
        refusal: *const Refusal,
        buffer: *mut u8,
        buffer_length: usize,
        needed: *mut usize,
    ) -> u32;
    pub fn cddlseq_explain_word(
        word: *const u8,
        word_length: usize,
        buffer: *mut u8,
        buffer_length: usize,
        needed: *mut usize,
    ) -> u32;
    pub fn cddlseq_open(
        text: *const u8,
        text_length: usize,
        root: *const u8,
        root_length: usize,
        limits: *const Limits,
        refusal: *mut Refusal,
        handle: *mut Handle,
    ) -> u32;
    pub fn cddlseq_validate_by(
        handle: *mut Handle,
        stream: *const u8,
        stream_length: usize,
        end: *mut End,
    ) -> u32;
    pub fn cddlseq_write_by(
        handle: *mut Handle,
        stream: *const u8,
        stream_length: usize,
        wanted: u32,
        end: *mut End,
        buffer: *mut u8,
        buffer_length: usize,
        needed: *mut usize,
    ) -> u32;
    pub fn cddlseq_close(handle: *mut Handle);
    pub fn cddlseq_share(handle: *mut Handle, other: *mut Handle) -> u32;
    pub fn cddlseq_begin(
        text: *const u8,
        text_length: usize,
        root: *const u8,
        root_length: usize,
        limits: *const Limits,
        refusal: *mut Refusal,
        session: *mut Handle,
    ) -> u32;
    pub fn cddlseq_begin_by(handle: *mut Handle, session: *mut Handle) -> u32;
    pub fn cddlseq_feed(
        session: *mut Handle,
        piece: *const u8,
        piece_length: usize,
        used: *mut usize,
        end: *mut End,
    ) -> u32;
    pub fn cddlseq_feed_all(
        session: *mut Handle,
        piece: *const u8,
        piece_length: usize,
        end: *mut End,
    ) -> u32;
    pub fn cddlseq_finish(session: *mut Handle, end: *mut End) -> u32;
    pub fn cddlseq_show(
        session: *mut Handle,
        wanted: u32,
        buffer: *mut u8,
        buffer_length: usize,
        needed: *mut usize,
    ) -> u32;
    pub fn cddlseq_restart(session: *mut Handle);
    pub fn cddlseq_discard(session: *mut Handle);
}
