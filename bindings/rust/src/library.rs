//! What the library is asked for: its answers and refusals, and the types that a thread holds open.
use crate::ffi::{self, Ended, Failure, Handle, Kind, OfFunc, OfType};
use crate::parser::{ParserError, ParserErrorKind};
use crate::value::{TypeError, TypeErrorKind};
use std::cell::{Cell, RefCell};
use std::thread::LocalKey;

/// The limit of levels where none is handed in.
pub(crate) const DEFAULT_LEVELS: u32 = 100;

/// The greatest limit of levels.
pub(crate) const MAX_LEVELS: u32 = 1000;

/// How many types, and how many functions' types, a thread holds open.
const HELD: usize = 16;

/// How many bytes of an answer are reckoned with, beside those for each byte that is handed over.
const FIRST: usize = 256;

/// How many bytes of an answer stand on the stack.
const SMALL: usize = 512;

/// How many bytes of a tape a thread keeps room for.
const KEPT: usize = 1 << 16;

// ---- refusals

/// Why the library gives no answer.
#[derive(Debug)]
pub(crate) enum Refusal {
    /// Memory was refused.
    Memory,
    /// The text of a type, or of a function's type, spells none.
    Type(TypeError),
    /// The text is refused.
    Text(ParserError),
    /// The bytes are no tape of a value at the type, or the type has no tape.
    Tape,
}

impl Refusal {
    /// The refusal that the failure tells; `explain` gives what explains one of a text.
    #[cold]
    fn of(failure: Failure, explain: impl FnOnce() -> Result<String, Failure>) -> Refusal {
        let report = failure.report;
        let span = report.start..report.end;
        match failure.status {
            ffi::REFUSED => match ParserErrorKind::of_number(report.kind) {
                // it has neither a detail nor a path
                kind @ ParserErrorKind::TrailingCharacters => {
                    Refusal::Text(ParserError::new(kind, span))
                }
                kind => match explain() {
                    Ok(explanation) => {
                        Refusal::Text(ParserError::explained(kind, span, &explanation))
                    }
                    Err(_) => Refusal::Memory,
                },
            },
            ffi::NO_TYPE => {
                Refusal::Type(TypeError::new(TypeErrorKind::of_number(report.kind), span))
            }
            ffi::NO_TAPE => Refusal::Tape,
            _ => Refusal::Memory,
        }
    }

    /// Of a call that is refused for no text that could be explained.
    #[cold]
    fn of_no_text(failure: Failure) -> Refusal {
        Refusal::of(failure, || Ok(String::new()))
    }

    /// As an error of reading a text of so many bytes at the type of this text.
    #[cold]
    pub(crate) fn into_parser_error(self, ty: &str, length: usize) -> ParserError {
        match self {
            Refusal::Text(error) => error,
            Refusal::Memory => ParserError::new(ParserErrorKind::OutOfMemory, 0..0),
            Refusal::Type(_) | Refusal::Tape => ParserError::unsupported_type(ty, 0..length),
        }
    }

    /// As an error of reading the text of a type, which has so many bytes.
    #[cold]
    pub(crate) fn into_type_error(self, length: usize) -> TypeError {
        match self {
            Refusal::Type(error) => error,
            Refusal::Tape => TypeError::new(TypeErrorKind::Unsupported, 0..length),
            Refusal::Memory | Refusal::Text(_) => TypeError::new(TypeErrorKind::OutOfMemory, 0..0),
        }
    }
}

// ---- answers

/// Room for an answer: on the stack for a small one.
struct Room {
    small: [u8; SMALL],
    large: Vec<u8>,
    length: usize,
}

impl Room {
    #[inline]
    fn new() -> Self {
        Room { small: [0; SMALL], large: Vec::new(), length: 0 }
    }

    /// Calls with room for so many bytes, and again where they are too few.
    #[inline]
    fn ask(
        &mut self,
        mut least: usize,
        mut call: impl FnMut(&mut [u8]) -> Ended,
    ) -> Result<(), Failure> {
        loop {
            let out = if least <= SMALL {
                &mut self.small[..]
            } else {
                self.large = vec![0; least];
                &mut self.large[..]
            };
            match call(out) {
                Ended::Done(length) => {
                    self.length = length;
                    return Ok(());
                }
                Ended::TooSmall(needed) => least = needed,
                Ended::Failed(failure) => return Err(failure),
            }
        }
    }

    #[inline]
    fn answer(&self) -> &[u8] {
        if self.large.is_empty() {
            &self.small[..self.length]
        } else {
            &self.large[..self.length]
        }
    }

    /// The answer as a text, which it is as the library says.
    #[inline]
    fn text(&mut self) -> String {
        let bytes = if self.large.is_empty() {
            self.small[..self.length].to_vec()
        } else {
            let mut bytes = std::mem::take(&mut self.large);
            bytes.truncate(self.length);
            bytes.shrink_to_fit();
            bytes
        };
        String::from_utf8(bytes)
            .unwrap_or_else(|error| String::from_utf8_lossy(error.as_bytes()).into_owned())
    }
}

/// The text that is the answer.
#[inline]
fn text_of(least: usize, call: impl FnMut(&mut [u8]) -> Ended) -> Result<String, Failure> {
    let mut room = Room::new();
    room.ask(least, call)?;
    Ok(room.text())
}

/// How many bytes an answer has, as far as is known.
#[inline]
fn reckoned(rate: usize, given: usize) -> usize {
    rate.saturating_mul(given).saturating_add(FIRST)
}

/// How many bytes of an answer a byte asked for, where that is more than was reckoned with.
#[inline]
fn rate(before: usize, answer: usize, given: usize) -> usize {
    if answer <= reckoned(before, given) {
        return before;
    }
    (answer / given.max(1) + 1).min(32)
}

// ---- what a thread holds

/// What is held open, with its text.
struct Held<K: Kind> {
    text: Box<str>,
    handle: Handle<K>,
    /// How many bytes of a tape a byte of a text asked for.
    tape_rate: usize,
    /// How many bytes of a text a byte of a tape asked for.
    text_rate: usize,
}

impl<K: Kind> Held<K> {
    fn open(text: &str) -> Result<Self, Refusal> {
        let handle = Handle::open(text, DEFAULT_LEVELS).map_err(Refusal::of_no_text)?;
        Ok(Held { text: text.into(), handle, tape_rate: 2, text_rate: 2 })
    }

    fn tape(&mut self) -> Result<Vec<u8>, Refusal> {
        let mut room = Room::new();
        room.ask(reckoned(4, self.text.len()), |out| self.handle.tape(out))
            .map_err(Refusal::of_no_text)?;
        Ok(room.answer().to_vec())
    }

    fn read(&mut self, text: &str, levels: u32, room: &mut Room) -> Result<(), Refusal> {
        let least = reckoned(self.tape_rate, text.len());
        let asked = room.ask(least, |out| K::read(&mut self.handle, text, levels, out));
        asked.map_err(|failure| Refusal::of(failure, || self.explain(text, levels)))?;
        self.tape_rate = rate(self.tape_rate, room.length, text.len());
        Ok(())
    }

    fn explain(&mut self, text: &str, levels: u32) -> Result<String, Failure> {
        text_of(reckoned(2, text.len()), |out| K::explain(&mut self.handle, text, levels, out))
    }
}

impl Held<OfType> {
    fn write(&mut self, tape: &[u8]) -> Result<String, Refusal> {
        let least = reckoned(self.text_rate, tape.len());
        let text = text_of(least, |out| self.handle.write(tape, out));
        let text = text.map_err(Refusal::of_no_text)?;
        self.text_rate = rate(self.text_rate, text.len(), tape.len());
        Ok(text)
    }
}

/// What is held open; what was used last stands first.
type Shelf<K> = RefCell<Vec<Held<K>>>;

thread_local! {
    static TYPES: Shelf<OfType> = const { RefCell::new(Vec::new()) };
    static FUNCS: Shelf<OfFunc> = const { RefCell::new(Vec::new()) };
    static TAPE: Cell<Vec<u8>> = const { Cell::new(Vec::new()) };
}

/// What has this text, opened where nothing has; it stands first then.
#[inline]
fn first<'a, K: Kind>(held: &'a mut Vec<Held<K>>, text: &str) -> Result<&'a mut Held<K>, Refusal> {
    match held.iter().position(|it| *it.text == *text) {
        Some(0) => {}
        Some(place) => held[..=place].rotate_right(1),
        None => {
            let opened = Held::open(text)?;
            held.truncate(HELD - 1);
            held.insert(0, opened);
        }
    }
    Ok(&mut held[0])
}

/// Calls with what has this text. The call runs no code of others, which might come here again.
#[inline]
fn with<K: Kind, R>(
    shelf: &'static LocalKey<Shelf<K>>,
    text: &str,
    mut call: impl FnMut(&mut Held<K>) -> Result<R, Refusal>,
) -> Result<R, Refusal> {
    let answer = shelf.try_with(|shelf| first(&mut shelf.borrow_mut(), text).and_then(&mut call));
    match answer {
        Ok(answer) => answer,
        // the thread ends, and holds nothing
        Err(_) => call(&mut Held::open(text)?),
    }
}

// ---- types

/// Reads the text at the type of this text, within so many levels, and hands its tape over.
#[inline]
pub(crate) fn read<R>(
    ty: &str,
    text: &str,
    levels: u32,
    then: impl FnOnce(&[u8]) -> R,
) -> Result<R, Refusal> {
    let mut room = Room::new();
    with(&TYPES, ty, |held| held.read(text, levels, &mut room))?;
    Ok(then(room.answer()))
}

/// Room for a tape, which is empty.
pub(crate) fn take_tape() -> Vec<u8> {
    let mut tape = TAPE.try_with(Cell::take).unwrap_or_default();
    tape.clear();
    tape
}

/// The canonical text of the value that has this tape at the type of this text. The tape's room
/// goes back to the thread.
pub(crate) fn write(ty: &str, tape: Vec<u8>) -> Result<String, Refusal> {
    let text = with(&TYPES, ty, |held| held.write(&tape));
    if tape.capacity() <= KEPT {
        // a thread that ends keeps none
        let _ = TAPE.try_with(|kept| kept.set(tape));
    }
    text
}

/// The tape of the type of this text.
pub(crate) fn type_tape(ty: &str) -> Result<Vec<u8>, Refusal> {
    with(&TYPES, ty, Held::tape)
}

/// Explains why the text is refused at the type of this text, or why this is the text of none; an
/// empty text where neither is refused.
pub(crate) fn explain(ty: &str, text: &str) -> Result<String, Refusal> {
    let levels = DEFAULT_LEVELS;
    let explained =
        with(&TYPES, ty, |held| held.explain(text, levels).map_err(Refusal::of_no_text));
    match explained {
        Err(Refusal::Type(_)) => explain_type(ty),
        explained => explained,
    }
}

/// Explains why the text spells no type; an empty text where it does.
pub(crate) fn explain_type(ty: &str) -> Result<String, Refusal> {
    match with(&TYPES, ty, |_| Ok(String::new())) {
        // where it is refused, it is before a text of a value
        Err(Refusal::Type(_)) => {
            let explain = |out: &mut [u8]| ffi::explain_at(ty, "", DEFAULT_LEVELS, out);
            text_of(reckoned(2, ty.len()), explain).map_err(Refusal::of_no_text)
        }
        explained => explained,
    }
}

// ---- without a type

/// The refusal of a text that is read without a type.
#[cold]
fn untyped_refusal(failure: Failure, text: &str, levels: u32) -> Refusal {
    Refusal::of(failure, || untyped_explanation(text, levels))
}

fn untyped_explanation(text: &str, levels: u32) -> Result<String, Failure> {
    text_of(reckoned(2, text.len()), |out| ffi::untyped_explain(text, levels, out))
}

/// Explains why the text is no value, of whatever type; an empty text where it is one.
pub(crate) fn explain_untyped(text: &str) -> Result<String, Refusal> {
    untyped_explanation(text, DEFAULT_LEVELS).map_err(Refusal::of_no_text)
}

/// The display of the text, which is read without a type.
pub(crate) fn untyped(text: &str, levels: u32) -> Result<String, Refusal> {
    text_of(reckoned(2, text.len()), |out| ffi::untyped(text, levels, out))
        .map_err(|failure| untyped_refusal(failure, text, levels))
}

/// Whether the text is a value, of whatever type.
pub(crate) fn check_untyped(text: &str, levels: u32) -> Result<(), Refusal> {
    match ffi::untyped(text, levels, &mut []) {
        Ended::Done(_) | Ended::TooSmall(_) => Ok(()),
        Ended::Failed(failure) => Err(untyped_refusal(failure, text, levels)),
    }
}

// ---- calls

/// Reads the call at the function's type of this text, and hands its tape over.
pub(crate) fn call<R>(func: &str, text: &str, then: impl FnOnce(&[u8]) -> R) -> Result<R, Refusal> {
    let mut room = Room::new();
    with(&FUNCS, func, |held| held.read(text, DEFAULT_LEVELS, &mut room))?;
    Ok(then(room.answer()))
}

/// Whether the text, which is a call, has anything between its parentheses.
pub(crate) fn check_call(text: &str) -> Result<bool, Refusal> {
    with(&FUNCS, "func()", |held: &mut Held<OfFunc>| {
        match OfFunc::read(&mut held.handle, text, DEFAULT_LEVELS, &mut []) {
            Ended::Done(_) | Ended::TooSmall(_) => Ok(false),
            // that there are parameters is a fault behind all faults of syntax
            Ended::Failed(failure) if is_of_params(failure) => Ok(true),
            Ended::Failed(failure) => {
                Err(Refusal::of(failure, || held.explain(text, DEFAULT_LEVELS)))
            }
        }
    })
}

fn is_of_params(failure: Failure) -> bool {
    failure.status == ffi::REFUSED
        && ParserErrorKind::of_number(failure.report.kind) == ParserErrorKind::InvalidParams
}

/// Explains why the text is refused as a call at the function's type of this text, or why this is
/// the text of none; an empty text where neither is refused.
pub(crate) fn explain_call(func: &str, text: &str) -> Result<String, Refusal> {
    let explained =
        with(&FUNCS, func, |held| held.explain(text, DEFAULT_LEVELS).map_err(Refusal::of_no_text));
    match explained {
        Err(Refusal::Type(_)) => explain_func(func),
        explained => explained,
    }
}

/// The tape of the function's type of this text.
pub(crate) fn func_tape(func: &str) -> Result<Vec<u8>, Refusal> {
    with(&FUNCS, func, Held::tape)
}

/// Explains why the text spells no function's type; an empty text where it does.
pub(crate) fn explain_func(func: &str) -> Result<String, Refusal> {
    let least = reckoned(2, func.len());
    text_of(least, |out| ffi::func_explain_at(func, DEFAULT_LEVELS, out))
        .map_err(Refusal::of_no_text)
}
