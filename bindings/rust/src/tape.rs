//! Tapes: the bytes by which a value crosses to the C library and back, laid out in docs/FORMATS.md
//! of the repository.
use crate::wasm::{WasmType, WasmTypeKind, WasmValue, WasmValueError};
use std::borrow::Cow;

mod put;

pub(crate) use put::{begun, put, put_count, put_text};

/// The version of tapes, their first byte.
pub(crate) const VERSION: u8 = 1;

/// Why a tape gives no value: what a `make_*` says, or that it is no tape of the type.
pub type Fault = Box<WasmValueError>;

/// The library's tape is none of the type: as where a type tells now this and now that.
#[cold]
fn broken() -> Fault {
    let words = "a tape that is not of the type";
    Box::new(WasmValueError::Other(words.to_owned()))
}

/// The value of the type of which all these bytes are the tape.
#[inline]
pub(crate) fn decode<V: WasmValue>(ty: &V::Type, bytes: &[u8]) -> Result<V, Fault> {
    Reader::whole(bytes, |tape| V::take_from_tape(ty, tape))
}

/// What is left of a tape.
#[derive(Debug)]
pub struct Reader<'a> {
    rest: &'a [u8],
}

impl<'a> Reader<'a> {
    /// What is taken of a whole tape, behind its version.
    #[inline]
    pub(crate) fn whole<T>(
        bytes: &'a [u8],
        take: impl FnOnce(&mut Self) -> Result<T, Fault>,
    ) -> Result<T, Fault> {
        let mut tape = Reader { rest: bytes };
        if tape.byte()? != VERSION {
            return Err(broken());
        }
        let taken = take(&mut tape)?;
        if !tape.rest.is_empty() {
            return Err(broken());
        }
        Ok(taken)
    }

    #[inline]
    pub(crate) fn byte(&mut self) -> Result<u8, Fault> {
        let (byte, rest) = self.rest.split_first().ok_or_else(broken)?;
        self.rest = rest;
        Ok(*byte)
    }

    /// The next bytes of a number.
    #[inline]
    pub(crate) fn number<const N: usize>(&mut self) -> Result<[u8; N], Fault> {
        let (number, rest) = self.rest.split_first_chunk().ok_or_else(broken)?;
        self.rest = rest;
        Ok(*number)
    }

    /// What is made of the next numbers, so many of them.
    pub(crate) fn numbers<const N: usize, T>(
        &mut self,
        count: usize,
        make: impl Fn([u8; N]) -> T,
    ) -> Result<Box<[T]>, Fault> {
        let length = count.checked_mul(N).ok_or_else(broken)?;
        let numbers = self.bytes(length)?.chunks_exact(N);
        Ok(numbers.map(|number| make(<[u8; N]>::try_from(number).unwrap_or([0; N]))).collect())
    }

    #[inline]
    fn bytes(&mut self, count: usize) -> Result<&'a [u8], Fault> {
        if count > self.rest.len() {
            return Err(broken());
        }
        let (bytes, rest) = self.rest.split_at(count);
        self.rest = rest;
        Ok(bytes)
    }

    /// Whether the next byte is 1; it is 0 else.
    #[inline]
    pub(crate) fn choice(&mut self) -> Result<bool, Fault> {
        match self.byte()? {
            0 => Ok(false),
            1 => Ok(true),
            _ => Err(broken()),
        }
    }

    #[inline]
    pub(crate) fn count(&mut self) -> Result<usize, Fault> {
        usize::try_from(u64::from_le_bytes(self.number()?)).map_err(|_| broken())
    }

    /// So many parts. No more room is taken for them than the bytes that are left cover.
    #[inline]
    pub(crate) fn parts<T>(
        &mut self,
        count: usize,
        mut take: impl FnMut(&mut Self) -> Result<T, Fault>,
    ) -> Result<Vec<T>, Fault> {
        let mut parts = Vec::with_capacity(count.min(self.rest.len()));
        for _ in 0..count {
            parts.push(take(self)?);
        }
        Ok(parts)
    }

    /// The 0 that stands for a row without parts.
    #[inline]
    pub(crate) fn row_end(&mut self, is_empty: bool) -> Result<(), Fault> {
        if is_empty && self.byte()? != 0 {
            return Err(broken());
        }
        Ok(())
    }

    #[inline]
    pub(crate) fn text(&mut self) -> Result<&'a str, Fault> {
        let count = self.count()?;
        std::str::from_utf8(self.bytes(count)?).map_err(|_| broken())
    }

    #[inline]
    pub(crate) fn char(&mut self) -> Result<char, Fault> {
        char::from_u32(u32::from_le_bytes(self.number()?)).ok_or_else(broken)
    }

    /// The place of the name that is next in the tape, among names that are asked for in turn.
    #[inline]
    pub(crate) fn name(
        &mut self,
        place_of: impl FnOnce(&str) -> Option<usize>,
    ) -> Result<usize, Fault> {
        place_of(self.text()?).ok_or_else(broken)
    }
}

/// The part of a type that tells it.
pub(crate) fn told<T>(part: Option<T>) -> Result<T, Fault> {
    part.ok_or_else(broken)
}

/// The value of the type whose bytes are next in the tape, by its `make_*`.
pub(crate) fn take<V: WasmValue>(ty: &V::Type, tape: &mut Reader<'_>) -> Result<V, Fault> {
    Ok(match ty.kind() {
        WasmTypeKind::Bool => V::make_bool(tape.choice()?),
        WasmTypeKind::S8 => V::make_s8(i8::from_le_bytes(tape.number()?)),
        WasmTypeKind::S16 => V::make_s16(i16::from_le_bytes(tape.number()?)),
        WasmTypeKind::S32 => V::make_s32(i32::from_le_bytes(tape.number()?)),
        WasmTypeKind::S64 => V::make_s64(i64::from_le_bytes(tape.number()?)),
        WasmTypeKind::U8 => V::make_u8(tape.byte()?),
        WasmTypeKind::U16 => V::make_u16(u16::from_le_bytes(tape.number()?)),
        WasmTypeKind::U32 => V::make_u32(u32::from_le_bytes(tape.number()?)),
        WasmTypeKind::U64 => V::make_u64(u64::from_le_bytes(tape.number()?)),
        WasmTypeKind::Char => V::make_char(tape.char()?),
        WasmTypeKind::String => V::make_string(Cow::Borrowed(tape.text()?)),
        WasmTypeKind::List => V::make_list(ty, take_list(ty, tape)?)?,
        WasmTypeKind::FixedLengthList => V::make_list(ty, take_fixed_length_list(ty, tape)?)?,
        WasmTypeKind::Tuple => V::make_tuple(ty, take_row(ty.tuple_element_types(), tape)?)?,
        WasmTypeKind::Record => take_record(ty, tape)?,
        WasmTypeKind::Variant => take_variant(ty, tape)?,
        WasmTypeKind::Enum => V::make_enum(ty, tape.text()?)?,
        WasmTypeKind::Option => {
            let some = told(ty.option_some_type())?;
            let payload = tape.choice()?.then_some(some);
            V::make_option(ty, take_payload(payload, tape)?)?
        }
        WasmTypeKind::Result => take_result(ty, tape)?,
        WasmTypeKind::Flags => {
            let count = tape.count()?;
            V::make_flags(ty, tape.parts(count, Reader::text)?)?
        }
        WasmTypeKind::Map => take_map(ty, tape)?,
        WasmTypeKind::F32 | WasmTypeKind::F64 | WasmTypeKind::Unsupported => return Err(broken()),
    })
}

fn take_list<V: WasmValue>(ty: &V::Type, tape: &mut Reader<'_>) -> Result<Vec<V>, Fault> {
    let element = told(ty.list_element_type())?;
    let count = tape.count()?;
    tape.parts(count, |tape| V::take_from_tape(&element, tape))
}

fn take_fixed_length_list<V: WasmValue>(
    ty: &V::Type,
    tape: &mut Reader<'_>,
) -> Result<Vec<V>, Fault> {
    let element = told(ty.list_element_type())?;
    let length = told(ty.list_length())?;
    tape.row_end(length == 0)?;
    tape.parts(length as usize, |tape| V::take_from_tape(&element, tape))
}

/// A value of each type; 0 stands for none.
fn take_row<V: WasmValue>(
    types: impl Iterator<Item = V::Type>,
    tape: &mut Reader<'_>,
) -> Result<Vec<V>, Fault> {
    let vals = types.map(|ty| V::take_from_tape(&ty, tape));
    let vals = vals.collect::<Result<Vec<_>, _>>()?;
    tape.row_end(vals.is_empty())?;
    Ok(vals)
}

fn take_record<V: WasmValue>(ty: &V::Type, tape: &mut Reader<'_>) -> Result<V, Fault> {
    let (names, types): (Vec<_>, Vec<_>) = ty.record_fields().unzip();
    let vals = take_row::<V>(types.into_iter(), tape)?;
    let fields = names.iter().map(AsRef::as_ref).zip(vals);
    Ok(V::make_record(ty, fields)?)
}

fn take_variant<V: WasmValue>(ty: &V::Type, tape: &mut Reader<'_>) -> Result<V, Fault> {
    let name = tape.text()?;
    let (_, payload) = told(ty.variant_cases().find(|(case, _)| case == name))?;
    Ok(V::make_variant(ty, name, take_payload(payload, tape)?)?)
}

fn take_result<V: WasmValue>(ty: &V::Type, tape: &mut Reader<'_>) -> Result<V, Fault> {
    let (ok, err) = told(ty.result_types())?;
    let val =
        if tape.choice()? { Err(take_payload(err, tape)?) } else { Ok(take_payload(ok, tape)?) };
    Ok(V::make_result(ty, val)?)
}

fn take_map<V: WasmValue>(ty: &V::Type, tape: &mut Reader<'_>) -> Result<V, Fault> {
    let (key, val) = told(ty.map_key_value_types())?;
    let count = tape.count()?;
    let entries = tape.parts(count, |tape| {
        let key = V::take_from_tape(&key, tape)?;
        Ok((key, V::take_from_tape(&val, tape)?))
    })?;
    Ok(V::make_map(ty, entries)?)
}

fn take_payload<V: WasmValue>(
    ty: Option<V::Type>,
    tape: &mut Reader<'_>,
) -> Result<Option<V>, Fault> {
    ty.map(|ty| V::take_from_tape(&ty, tape)).transpose()
}
