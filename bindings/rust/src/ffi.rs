//! The C library's calls, as include/wave.h declares them, behind safe ones. All that is unsafe of
//! this crate stands here.
#![allow(unsafe_code)]
use std::ffi::c_void;
use std::marker::PhantomData;

const OK: u32 = 0;
const TOO_SMALL: u32 = 1;
pub(crate) const NO_TYPE: u32 = 4;
pub(crate) const REFUSED: u32 = 5;
pub(crate) const NO_TAPE: u32 = 6;

/// `wave_report`: what a call tells beside its status.
#[repr(C)]
#[derive(Clone, Copy, Debug, Default)]
pub(crate) struct Report {
    length: usize,
    pub(crate) start: usize,
    pub(crate) end: usize,
    pub(crate) kind: u32,
}

/// `wave_type` or `wave_func`, which are laid out alike.
#[repr(C)]
pub(crate) struct Raw {
    at: *mut c_void,
    full: bool,
}

extern "C" {
    fn wave_version() -> u32;
    fn wave_untyped(
        text: *const u8,
        text_length: usize,
        levels: u32,
        out: *mut u8,
        out_length: usize,
        report: *mut Report,
    ) -> u32;
    fn wave_untyped_explain(
        text: *const u8,
        text_length: usize,
        levels: u32,
        out: *mut u8,
        out_length: usize,
        report: *mut Report,
    ) -> u32;
    fn wave_explain_at(
        ty: *const u8,
        type_length: usize,
        text: *const u8,
        text_length: usize,
        levels: u32,
        out: *mut u8,
        out_length: usize,
        report: *mut Report,
    ) -> u32;
    fn wave_func_explain_at(
        func: *const u8,
        func_length: usize,
        levels: u32,
        out: *mut u8,
        out_length: usize,
        report: *mut Report,
    ) -> u32;

    fn wave_type_open(
        ty: *const u8,
        type_length: usize,
        levels: u32,
        handle: *mut Raw,
        report: *mut Report,
    ) -> u32;
    fn wave_type_close(handle: *mut Raw);
    fn wave_type_tape(
        handle: *mut Raw,
        out: *mut u8,
        out_length: usize,
        report: *mut Report,
    ) -> u32;
    fn wave_read(
        handle: *mut Raw,
        text: *const u8,
        text_length: usize,
        levels: u32,
        out: *mut u8,
        out_length: usize,
        report: *mut Report,
    ) -> u32;
    fn wave_explain(
        handle: *mut Raw,
        text: *const u8,
        text_length: usize,
        levels: u32,
        out: *mut u8,
        out_length: usize,
        report: *mut Report,
    ) -> u32;
    fn wave_write(
        handle: *mut Raw,
        tape: *const u8,
        tape_length: usize,
        out: *mut u8,
        out_length: usize,
        report: *mut Report,
    ) -> u32;

    fn wave_func_open(
        func: *const u8,
        func_length: usize,
        levels: u32,
        handle: *mut Raw,
        report: *mut Report,
    ) -> u32;
    fn wave_func_close(handle: *mut Raw);
    fn wave_func_tape(
        handle: *mut Raw,
        out: *mut u8,
        out_length: usize,
        report: *mut Report,
    ) -> u32;
    fn wave_call(
        handle: *mut Raw,
        text: *const u8,
        text_length: usize,
        levels: u32,
        out: *mut u8,
        out_length: usize,
        report: *mut Report,
    ) -> u32;
    fn wave_call_explain(
        handle: *mut Raw,
        text: *const u8,
        text_length: usize,
        levels: u32,
        out: *mut u8,
        out_length: usize,
        report: *mut Report,
    ) -> u32;
}

/// How a call ended.
pub(crate) enum Ended {
    /// The answer has so many bytes, the first of the buffer.
    Done(usize),
    /// It has so many, more than the buffer.
    TooSmall(usize),
    /// There is none.
    Failed(Failure),
}

/// The status of a call without an answer, and what it tells beside.
#[derive(Clone, Copy, Debug)]
pub(crate) struct Failure {
    pub(crate) status: u32,
    pub(crate) report: Report,
}

/// Calls with a buffer. What the closure hands on of it is what `call` reads and writes.
#[inline]
fn ask(out: &mut [u8], call: impl FnOnce(*mut u8, usize, *mut Report) -> u32) -> Ended {
    let mut report = Report::default();
    match call(out.as_mut_ptr(), out.len(), &mut report) {
        OK => Ended::Done(report.length.min(out.len())),
        TOO_SMALL => Ended::TooSmall(report.length),
        status => Ended::Failed(Failure { status, report }),
    }
}

type OpenCall = unsafe extern "C" fn(*const u8, usize, u32, *mut Raw, *mut Report) -> u32;
type TapeCall = unsafe extern "C" fn(*mut Raw, *mut u8, usize, *mut Report) -> u32;
type BytesCall =
    unsafe extern "C" fn(*mut Raw, *const u8, usize, *mut u8, usize, *mut Report) -> u32;
type TextCall =
    unsafe extern "C" fn(*mut Raw, *const u8, usize, u32, *mut u8, usize, *mut Report) -> u32;

/// What handles are of, with the calls that take these alone.
pub(crate) trait Kind: Sized {
    const OPEN: OpenCall;
    const CLOSE: unsafe extern "C" fn(*mut Raw);
    const TAPE: TapeCall;

    /// The tape of what the text means, within so many levels.
    fn read(handle: &mut Handle<Self>, text: &str, levels: u32, out: &mut [u8]) -> Ended;

    /// What explains why the text is refused.
    fn explain(handle: &mut Handle<Self>, text: &str, levels: u32, out: &mut [u8]) -> Ended;
}

/// A type.
pub(crate) struct OfType;

/// A function's type: the texts are calls.
pub(crate) struct OfFunc;

impl Kind for OfType {
    const OPEN: OpenCall = wave_type_open;
    const CLOSE: unsafe extern "C" fn(*mut Raw) = wave_type_close;
    const TAPE: TapeCall = wave_type_tape;

    #[inline]
    fn read(handle: &mut Handle<Self>, text: &str, levels: u32, out: &mut [u8]) -> Ended {
        handle.with_text(wave_read, text, levels, out)
    }

    fn explain(handle: &mut Handle<Self>, text: &str, levels: u32, out: &mut [u8]) -> Ended {
        handle.with_text(wave_explain, text, levels, out)
    }
}

impl Kind for OfFunc {
    const OPEN: OpenCall = wave_func_open;
    const CLOSE: unsafe extern "C" fn(*mut Raw) = wave_func_close;
    const TAPE: TapeCall = wave_func_tape;

    #[inline]
    fn read(handle: &mut Handle<Self>, text: &str, levels: u32, out: &mut [u8]) -> Ended {
        handle.with_text(wave_call, text, levels, out)
    }

    fn explain(handle: &mut Handle<Self>, text: &str, levels: u32, out: &mut [u8]) -> Ended {
        handle.with_text(wave_call_explain, text, levels, out)
    }
}

/// What is held open until it is dropped. The pointer in it keeps it on its thread.
pub(crate) struct Handle<K: Kind> {
    raw: Raw,
    kind: PhantomData<K>,
}

impl<K: Kind> Handle<K> {
    /// Holds what the text spells.
    pub(crate) fn open(text: &str, levels: u32) -> Result<Self, Failure> {
        let raw = Raw { at: std::ptr::null_mut(), full: false };
        let mut handle = Handle { raw, kind: PhantomData };
        let mut report = Report::default();
        let (at, length) = (text.as_ptr(), text.len());
        // SAFETY: pointer and length are of one text; the handle, which is closed, and the report
        // are lent to this call alone.
        let status = unsafe { K::OPEN(at, length, levels, &mut handle.raw, &mut report) };
        if status == OK {
            Ok(handle)
        } else {
            Err(Failure { status, report })
        }
    }

    /// The tape of what it holds.
    pub(crate) fn tape(&mut self, out: &mut [u8]) -> Ended {
        ask(out, |out, room, report| {
            // SAFETY: the handle has been opened by the call of its kind; out and room are of one
            // buffer, which is written; handle, buffer and report are lent to this call alone.
            unsafe { K::TAPE(&mut self.raw, out, room, report) }
        })
    }

    /// Calls with bytes. The call is one that takes handles of this kind.
    #[inline]
    fn with_bytes(&mut self, call: BytesCall, bytes: &[u8], out: &mut [u8]) -> Ended {
        let (at, length) = (bytes.as_ptr(), bytes.len());
        ask(out, |out, room, report| {
            // SAFETY: as of `tape`; pointer and length are of one slice, which nothing writes.
            unsafe { call(&mut self.raw, at, length, out, room, report) }
        })
    }

    /// So with a text and a limit of levels.
    #[inline]
    fn with_text(&mut self, call: TextCall, text: &str, levels: u32, out: &mut [u8]) -> Ended {
        let (at, length) = (text.as_ptr(), text.len());
        ask(out, |out, room, report| {
            // SAFETY: as of `with_bytes`.
            unsafe { call(&mut self.raw, at, length, levels, out, room, report) }
        })
    }
}

impl Handle<OfType> {
    /// The canonical text of the value that has this tape.
    #[inline]
    pub(crate) fn write(&mut self, tape: &[u8], out: &mut [u8]) -> Ended {
        self.with_bytes(wave_write, tape, out)
    }
}

impl<K: Kind> Drop for Handle<K> {
    fn drop(&mut self) {
        // SAFETY: the handle is closed, or has been opened by a call of its kind, on this thread.
        unsafe { K::CLOSE(&mut self.raw) }
    }
}

/// The display of the text, which is read without a type.
pub(crate) fn untyped(text: &str, levels: u32, out: &mut [u8]) -> Ended {
    ask(out, |out, room, report| {
        // SAFETY: pointers and lengths are of one text, which nothing writes, and of one buffer;
        // this and the report are lent to this call alone.
        unsafe { wave_untyped(text.as_ptr(), text.len(), levels, out, room, report) }
    })
}

/// What explains why the text is refused, which is read without a type.
pub(crate) fn untyped_explain(text: &str, levels: u32, out: &mut [u8]) -> Ended {
    ask(out, |out, room, report| {
        // SAFETY: as of `untyped`.
        unsafe { wave_untyped_explain(text.as_ptr(), text.len(), levels, out, room, report) }
    })
}

/// What explains why the text of a type, or else the text of a value at it, is refused.
pub(crate) fn explain_at(ty: &str, text: &str, levels: u32, out: &mut [u8]) -> Ended {
    ask(out, |out, room, report| {
        // SAFETY: as of `untyped`, of two texts.
        unsafe {
            wave_explain_at(
                ty.as_ptr(),
                ty.len(),
                text.as_ptr(),
                text.len(),
                levels,
                out,
                room,
                report,
            )
        }
    })
}

/// What explains why the text of a function's type is refused.
pub(crate) fn func_explain_at(func: &str, levels: u32, out: &mut [u8]) -> Ended {
    ask(out, |out, room, report| {
        // SAFETY: as of `untyped`.
        unsafe { wave_func_explain_at(func.as_ptr(), func.len(), levels, out, room, report) }
    })
}

/// The version of the library, as 0x00MMmmpp.
pub(crate) fn version() -> u32 {
    // SAFETY: it takes nothing.
    unsafe { wave_version() }
}
