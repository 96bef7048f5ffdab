//! The traits by which any types, values and functions can be read and written, and their displays.
mod fmt;
mod func;
mod ty;
mod val;

pub(crate) use fmt::spelling;
pub use fmt::{DisplayFunc, DisplayFuncArgs, DisplayFuncResults, DisplayType, DisplayValue};
pub use func::WasmFunc;
pub use ty::{WasmType, WasmTypeKind};
pub use val::WasmValue;

use std::error::Error;
use std::fmt as std_fmt;

/// Is `Ok` where the type is of the kind.
///
/// # Errors
/// [`WasmValueError::WrongTypeKind`] where it is of another.
pub fn ensure_type_kind(ty: &impl WasmType, kind: WasmTypeKind) -> Result<(), WasmValueError> {
    if ty.kind() == kind {
        return Ok(());
    }
    Err(WasmValueError::WrongTypeKind { kind, ty: DisplayType(ty).to_string() })
}

/// Why a [`WasmValue`] can't be made.
#[derive(Clone, Debug, PartialEq, Eq)]
#[non_exhaustive]
pub enum WasmValueError {
    /// The record's field of this name has no value.
    MissingField(String),
    /// The case of this name has a payload, and none is there.
    MissingPayload(String),
    /// The case of this name has no payload, and one is there.
    UnexpectedPayload(String),
    /// The type has no case and no flag of this name.
    UnknownCase(String),
    /// The record has no field of this name.
    UnknownField(String),
    /// The type of this text has no values here.
    UnsupportedType(String),
    /// The fixed-length list has so many elements.
    WrongNumberOfElements {
        /// How many the type says.
        want: usize,
        /// How many there are.
        got: usize,
    },
    /// The tuple has so many values.
    WrongNumberOfTupleValues {
        /// How many the type says.
        want: usize,
        /// How many there are.
        got: usize,
    },
    /// The type of this text isn't of this kind.
    WrongTypeKind {
        /// The kind that was asked for.
        kind: WasmTypeKind,
        /// The text of the type.
        ty: String,
    },
    /// The value of this text isn't of the type of this text.
    WrongValueType {
        /// The text of the type.
        ty: String,
        /// The text of the value.
        val: String,
    },
    /// Another cause, in its own words.
    Other(String),
}

impl WasmValueError {
    /// The value isn't of the type.
    pub(crate) fn wrong_value_type(ty: &impl WasmType, val: &impl WasmValue) -> Self {
        let shown = crate::to_string(val).unwrap_or_else(|_| format!("a {}", val.kind()));
        WasmValueError::WrongValueType { ty: DisplayType(ty).to_string(), val: shown }
    }

    /// The cause that these words tell.
    pub(crate) fn from_words(words: &str) -> Self {
        let quoted = |before: &str, after: &str| {
            let name = words.strip_prefix(before)?.strip_suffix(after)?;
            name.strip_prefix('"')?.strip_suffix('"').map(str::to_owned)
        };
        let counts = |between: &str| {
            let (want, got) = words.strip_prefix("expected ")?.split_once(between)?;
            Some((want.parse().ok()?, got.parse().ok()?))
        };
        if let Some(name) = quoted("missing field ", "") {
            WasmValueError::MissingField(name)
        } else if let Some(name) = quoted("missing payload for ", " case") {
            WasmValueError::MissingPayload(name)
        } else if let Some(name) = quoted("unexpected payload for ", " case") {
            WasmValueError::UnexpectedPayload(name)
        } else if let Some(name) = quoted("unknown case ", "") {
            WasmValueError::UnknownCase(name)
        } else if let Some(name) = quoted("unknown field ", "") {
            WasmValueError::UnknownField(name)
        } else if let Some(ty) = words.strip_prefix("unsupported type ") {
            WasmValueError::UnsupportedType(ty.to_owned())
        } else if let Some((want, got)) = counts(" list elements; got ") {
            WasmValueError::WrongNumberOfElements { want, got }
        } else if let Some((want, got)) = counts(" tuple elements; got ") {
            WasmValueError::WrongNumberOfTupleValues { want, got }
        } else {
            WasmValueError::Other(words.to_owned())
        }
    }
}

impl std_fmt::Display for WasmValueError {
    fn fmt(&self, f: &mut std_fmt::Formatter<'_>) -> std_fmt::Result {
        match self {
            WasmValueError::MissingField(name) => write!(f, "missing field {name:?}"),
            WasmValueError::MissingPayload(name) => write!(f, "missing payload for {name:?} case"),
            WasmValueError::UnexpectedPayload(name) => {
                write!(f, "unexpected payload for {name:?} case")
            }
            WasmValueError::UnknownCase(name) => write!(f, "unknown case {name:?}"),
            WasmValueError::UnknownField(name) => write!(f, "unknown field {name:?}"),
            WasmValueError::UnsupportedType(ty) => write!(f, "unsupported type {ty}"),
            WasmValueError::WrongNumberOfElements { want, got } => {
                write!(f, "expected {want} list elements; got {got}")
            }
            WasmValueError::WrongNumberOfTupleValues { want, got } => {
                write!(f, "expected {want} tuple elements; got {got}")
            }
            WasmValueError::WrongTypeKind { kind, ty } => write!(f, "expected a {kind}; got {ty}"),
            WasmValueError::WrongValueType { ty, val } => write!(f, "expected a {ty}; got {val}"),
            WasmValueError::Other(words) => f.write_str(words),
        }
    }
}

impl Error for WasmValueError {}

#[cfg(test)]
mod tests {
    use super::*;
    use crate::value::Type;

    #[test]
    fn a_cause_is_told_by_its_words() {
        let name = || String::from("a-b");
        for cause in [
            WasmValueError::MissingField(name()),
            WasmValueError::MissingPayload(name()),
            WasmValueError::UnexpectedPayload(name()),
            WasmValueError::UnknownCase(name()),
            WasmValueError::UnknownField(name()),
            WasmValueError::UnsupportedType("f32".into()),
            WasmValueError::WrongNumberOfElements { want: 4, got: 1 },
            WasmValueError::WrongNumberOfTupleValues { want: 2, got: 3 },
            WasmValueError::Other("this point lies outside".into()),
        ] {
            assert_eq!(WasmValueError::from_words(&cause.to_string()), cause);
        }
    }

    #[test]
    fn kinds_are_ensured() {
        assert_eq!(ensure_type_kind(&Type::U8, WasmTypeKind::U8), Ok(()));
        let error = ensure_type_kind(&Type::list(Type::U8), WasmTypeKind::Map).unwrap_err();
        assert_eq!(error.to_string(), "expected a map; got list<u8>");
    }
}
