//! Types made from texts that spell them, and why one spells none.
use super::Type;
use crate::library::{self, Refusal};
use crate::parser::Span;
use crate::tape::{told, Fault, Reader};
use std::error::Error;
use std::fmt;

/// A row of types, each with its name, which is empty where there is none.
pub(super) type Named = Vec<(String, Type)>;

/// The type that the text spells.
pub(super) fn type_of(text: &str) -> Result<Type, TypeError> {
    made(text, library::type_tape(text), take_type)
}

/// The parameters and the results of the function's type that the text spells.
pub(super) fn func_of(text: &str) -> Result<(Named, Named), TypeError> {
    made(text, library::func_tape(text), |tape| Ok((take_named(tape)?, take_named(tape)?)))
}

/// What is made of the tape of what the text spells.
fn made<T>(
    text: &str,
    tape: Result<Vec<u8>, Refusal>,
    take: impl FnOnce(&mut Reader<'_>) -> Result<T, Fault>,
) -> Result<T, TypeError> {
    let tape = tape.map_err(|refusal| refusal.into_type_error(text.len()))?;
    Reader::whole(&tape, take)
        .map_err(|_| TypeError::new(TypeErrorKind::Unsupported, 0..text.len()))
}

/// The type whose bytes are next in a tape of types: the number of its kind, and its parts.
fn take_type(tape: &mut Reader<'_>) -> Result<Type, Fault> {
    Ok(match tape.byte()? {
        1 => Type::BOOL,
        2 => Type::U8,
        3 => Type::U16,
        4 => Type::U32,
        5 => Type::U64,
        6 => Type::S8,
        7 => Type::S16,
        8 => Type::S32,
        9 => Type::S64,
        10 => Type::CHAR,
        11 => Type::STRING,
        12 => Type::list(take_type(tape)?),
        13 => told(Type::tuple(take_counted(tape, take_type)?))?,
        14 => told(Type::record(take_named(tape)?))?,
        15 => told(Type::variant(take_counted(tape, |tape| {
            Ok((tape.text()?, take_payload(tape)?))
        })?))?,
        16 => told(Type::enum_ty(take_counted(tape, Reader::text)?))?,
        17 => Type::option(take_type(tape)?),
        18 => Type::result(take_payload(tape)?, take_payload(tape)?),
        19 => told(Type::flags(take_counted(tape, Reader::text)?))?,
        20 => told(Type::map(take_type(tape)?, take_type(tape)?))?,
        21 => {
            let length = told(u32::try_from(tape.count()?).ok())?;
            Type::fixed_length_list(take_type(tape)?, length)
        }
        22 => Type::F32,
        23 => Type::F64,
        _ => return told(None),
    })
}

/// The count of parts, and these.
fn take_counted<'a, T>(
    tape: &mut Reader<'a>,
    take: impl FnMut(&mut Reader<'a>) -> Result<T, Fault>,
) -> Result<Vec<T>, Fault> {
    let count = tape.count()?;
    tape.parts(count, take)
}

fn take_named(tape: &mut Reader<'_>) -> Result<Named, Fault> {
    take_counted(tape, |tape| Ok((tape.text()?.to_owned(), take_type(tape)?)))
}

fn take_payload(tape: &mut Reader<'_>) -> Result<Option<Type>, Fault> {
    Ok(if tape.choice()? { Some(take_type(tape)?) } else { None })
}

/// Why a text spells no type.
#[derive(Clone, Debug, PartialEq, Eq)]
pub struct TypeError {
    kind: TypeErrorKind,
    span: Span,
}

impl TypeError {
    pub(crate) fn new(kind: TypeErrorKind, span: Span) -> Self {
        TypeError { kind, span }
    }

    /// The kind of the error.
    pub fn kind(&self) -> TypeErrorKind {
        self.kind
    }

    /// The bytes of the text where it arose.
    pub fn span(&self) -> Span {
        self.span.clone()
    }
}

impl fmt::Display for TypeError {
    fn fmt(&self, f: &mut fmt::Formatter<'_>) -> fmt::Result {
        write!(f, "{} at {}..{}", self.kind, self.span.start, self.span.end)
    }
}

impl Error for TypeError {}

/// The kind of a [`TypeError`].
#[derive(Clone, Copy, Debug, PartialEq, Eq, Hash)]
#[non_exhaustive]
pub enum TypeErrorKind {
    /// A token that can't stand here.
    UnexpectedToken,
    /// The end of the text where more is expected.
    UnexpectedEnd,
    /// A place where no token begins.
    InvalidToken,
    /// A name that stood before in the same record, variant, enum, flags, parameters or results.
    DuplicateName,
    /// A type that the keys of a map can't have.
    InvalidKeyType,
    /// A count that is no decimal number from 0 to 4294967295.
    InvalidCount,
    /// A type inside too many others.
    NestingTooDeep,
    /// A type that a library newer than this crate has. The whole text.
    Unsupported,
    /// Memory was refused, at 0..0.
    OutOfMemory,
}

impl TypeErrorKind {
    /// The kind of this number in the C library.
    pub(crate) fn of_number(number: u32) -> Self {
        match number {
            102 => TypeErrorKind::UnexpectedEnd,
            103 => TypeErrorKind::InvalidToken,
            104 => TypeErrorKind::DuplicateName,
            105 => TypeErrorKind::InvalidKeyType,
            106 => TypeErrorKind::InvalidCount,
            107 => TypeErrorKind::NestingTooDeep,
            108 => TypeErrorKind::OutOfMemory,
            // 101, or a kind newer than this crate
            _ => TypeErrorKind::UnexpectedToken,
        }
    }
}

impl fmt::Display for TypeErrorKind {
    fn fmt(&self, f: &mut fmt::Formatter<'_>) -> fmt::Result {
        f.write_str(match self {
            TypeErrorKind::UnexpectedToken => "unexpected token in a type",
            TypeErrorKind::UnexpectedEnd => "unexpected end of a type",
            TypeErrorKind::InvalidToken => "invalid token in a type",
            TypeErrorKind::DuplicateName => "duplicate name in a type",
            TypeErrorKind::InvalidKeyType => "invalid type of a map's keys",
            TypeErrorKind::InvalidCount => "invalid length of a list",
            TypeErrorKind::NestingTooDeep => "type nesting too deep",
            TypeErrorKind::Unsupported => "unsupported type",
            TypeErrorKind::OutOfMemory => "out of memory",
        })
    }
}
