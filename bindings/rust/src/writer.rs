//! Writing, and why a value has no text.
use crate::wasm::WasmValue;
use std::error::Error;
use std::fmt::{self, Write};

/// Writes values to what it wraps.
#[derive(Debug)]
pub struct Writer<W> {
    inner: W,
}

impl<W: Write> Writer<W> {
    /// One that writes to this.
    pub fn new(inner: W) -> Self {
        Writer { inner }
    }

    /// Writes the canonical text of the value.
    ///
    /// # Errors
    /// Where the value has none, before anything is written, or where it can't be written.
    pub fn write_value<V: WasmValue>(&mut self, val: &V) -> Result<(), WriterError> {
        let text = crate::to_string(val)?;
        Ok(self.inner.write_str(&text)?)
    }
}

impl<W> AsMut<W> for Writer<W> {
    fn as_mut(&mut self) -> &mut W {
        &mut self.inner
    }
}

/// Why a value has no text, or isn't written.
#[derive(Clone, Debug, PartialEq, Eq)]
#[non_exhaustive]
pub enum WriterError {
    /// What is written to fails.
    Io(fmt::Error),
    /// A part of the value is an `f32`, an `f64` or unsupported.
    UnsupportedType,
    /// The value has no type that a text spells: a name is no label, the items of a list have no
    /// type in common, or more than 100 values stand one inside another; or it isn't of the type
    /// that it tells.
    NoType,
    /// Memory was refused.
    Memory,
}

impl fmt::Display for WriterError {
    fn fmt(&self, f: &mut fmt::Formatter<'_>) -> fmt::Result {
        match self {
            WriterError::Io(error) => write!(f, "write failed: {error}"),
            WriterError::UnsupportedType => f.write_str("unsupported value type"),
            WriterError::NoType => f.write_str("value has no type that can be spelled"),
            WriterError::Memory => f.write_str("out of memory"),
        }
    }
}

impl Error for WriterError {
    fn source(&self) -> Option<&(dyn Error + 'static)> {
        match self {
            WriterError::Io(error) => Some(error),
            _ => None,
        }
    }
}

impl From<fmt::Error> for WriterError {
    fn from(error: fmt::Error) -> Self {
        WriterError::Io(error)
    }
}
