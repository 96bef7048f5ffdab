//! WAVE, the text encoding of WebAssembly component values.
//!
//! The API is that of the crate `wasm-wave`; reading, refusing and writing is done by a C library,
//! whose core is proved: a text and a type give the value that the text means or an error with its
//! place, and a value gives its one canonical text. The README says what differs, and where the
//! library is looked for.
//!
//! ```
//! use wave::value::{Type, Value};
//! use wave::wasm::WasmValue;
//!
//! let ty = Type::list(Type::U8);
//! let value: Value = wave::from_str(&ty, "[1, 2, // two\n 3,]")?;
//! assert_eq!(value.unwrap_list().count(), 3);
//! assert_eq!(wave::to_string(&value)?, "[1, 2, 3]");
//!
//! let error = wave::from_str::<Value>(&ty, "[1, 300]").unwrap_err();
//! assert_eq!(error.to_string(), "invalid value at 4..7");
//! # Ok::<(), Box<dyn std::error::Error>>(())
//! ```
#![deny(unsafe_code)]

mod ffi;
mod library;
pub mod parser;
mod shape;
mod tape;
pub mod untyped;
pub mod value;
pub mod wasm;
pub mod writer;

use library::Refusal;
use parser::ParserError;
use shape::Shape;
use wasm::{DisplayType, WasmFunc, WasmType, WasmValue};
use writer::WriterError;

/// The value of the type that the text means.
///
/// # Errors
/// Where it means none, why and where: an error of syntax, then the first fault of type in the
/// text, then what stands behind the value. At a type that no text spells, as of names that are no
/// labels or repeat, it is
/// [`WasmValueError::UnsupportedType`](wasm::WasmValueError::UnsupportedType).
pub fn from_str<V: WasmValue>(ty: &V::Type, s: &str) -> Result<V, ParserError> {
    read_at(ty, s, library::DEFAULT_LEVELS)
}

/// The canonical text of the value.
///
/// # Errors
/// Where it has none: a part is unsupported, or no type is the value's.
pub fn to_string(val: &impl WasmValue) -> Result<String, WriterError> {
    match val.ty() {
        Some(ty) => write_at(&ty, |tape| val.put_to_tape(&ty, tape)),
        None => {
            let ty = Shape::of(val)?.into_type().ok_or(WriterError::NoType)?;
            write_at(&ty, |tape| tape::put(&ty, val, tape))
        }
    }
}

/// Explains, in lines that end with a line feed, why the text is refused at the type: the message,
/// the place with its line and column and the path within the value, the line with the place
/// marked, and what was expected there. An empty text where it isn't refused.
pub fn explain<T: WasmType>(ty: &T, text: &str) -> String {
    match ty.spelled() {
        Some(spelled) => explained(library::explain(&spelled, text)),
        None => format!("unsupported type {}\n", DisplayType(ty)),
    }
}

/// Explains so why the text is refused as a call at the function's type, also where
/// [`UntypedFuncCall::parse`](untyped::UntypedFuncCall::parse) refuses it.
pub fn explain_call<F: WasmFunc>(func: &F, text: &str) -> String {
    let types: Vec<_> = func.params().collect();
    match untyped::spelled_func(types.iter(), func.param_names()) {
        Ok(spelled) => explained(library::explain_call(&spelled, text)),
        Err(ty) => format!("unsupported type {ty}\n"),
    }
}

/// Explains so why the text is no value, of whatever type.
pub fn explain_untyped(text: &str) -> String {
    explained(library::explain_untyped(text))
}

/// Explains so why the text spells no [`Type`](value::Type).
pub fn explain_type(text: &str) -> String {
    explained(library::explain_type(text))
}

/// Explains so why the text spells no [`FuncType`](value::FuncType).
pub fn explain_func_type(text: &str) -> String {
    explained(library::explain_func(text))
}

fn explained(explanation: Result<String, Refusal>) -> String {
    explanation.unwrap_or_else(|_| String::from("out of memory\n"))
}

/// The version of the library: its three numbers.
pub fn version() -> (u8, u8, u8) {
    let [_, major, minor, patch] = ffi::version().to_be_bytes();
    (major, minor, patch)
}

/// Reads the text at the type, within so many levels.
fn read_at<V: WasmValue>(ty: &V::Type, text: &str, levels: u32) -> Result<V, ParserError> {
    let whole = 0..text.len();
    let Some(spelled) = ty.spelled() else {
        return Err(ParserError::unsupported_type(&DisplayType(ty).to_string(), whole));
    };
    match library::read(&spelled, text, levels, |bytes| tape::decode::<V>(ty, bytes)) {
        Ok(Ok(val)) => Ok(val),
        Ok(Err(cause)) => Err(ParserError::of_cause(*cause, whole)),
        Err(refusal) => Err(refusal.into_parser_error(&spelled, text.len())),
    }
}

/// Writes the value whose bytes at the type are put to a tape.
fn write_at(
    ty: &impl WasmType,
    put: impl FnOnce(&mut Vec<u8>) -> Result<(), WriterError>,
) -> Result<String, WriterError> {
    let spelled = ty.spelled().ok_or(WriterError::NoType)?;
    let mut tape = tape::begun(library::take_tape());
    put(&mut tape)?;
    library::write(&spelled, tape).map_err(|refusal| match refusal {
        Refusal::Type(_) | Refusal::Tape => WriterError::NoType,
        Refusal::Memory | Refusal::Text(_) => WriterError::Memory,
    })
}
