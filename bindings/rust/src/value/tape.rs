//! Values from and to tapes, without the ways of the trait: what [`crate::tape`] does by `make_*`
//! and `unwrap_*`.
use super::ty::{Compound, Parts, Repr};
use super::{Content, Type, Value};
use crate::tape::{put_count, put_text, told, Fault, Reader};
use crate::wasm::WasmTypeKind;
use std::sync::Arc;

impl Compound {
    /// The fields of a record.
    pub(super) fn fields(&self) -> &[(Box<str>, Type)] {
        match &self.parts {
            Parts::Record(fields) => fields,
            _ => &[],
        }
    }

    /// The name at this place, of a variant's or enum's cases, or of flags.
    pub(super) fn name(&self, place: usize) -> &str {
        match &self.parts {
            Parts::Variant(cases) => &cases[place].0,
            Parts::Enum(names) | Parts::Flags(names) => &names[place],
            _ => "",
        }
    }
}

/// The value of the type whose bytes are next in the tape. Its parts are of the types that its own
/// states.
pub(super) fn take(ty: &Type, tape: &mut Reader<'_>) -> Result<Value, Fault> {
    match &ty.0 {
        Repr::Simple(kind) => take_simple(*kind, tape),
        Repr::Compound(compound) => take_compound(compound, tape),
    }
    .map(Value)
}

#[inline]
fn take_simple(kind: WasmTypeKind, tape: &mut Reader<'_>) -> Result<Content, Fault> {
    Ok(match kind {
        WasmTypeKind::Bool => Content::Bool(tape.choice()?),
        WasmTypeKind::S8 => Content::S8(i8::from_le_bytes(tape.number()?)),
        WasmTypeKind::S16 => Content::S16(i16::from_le_bytes(tape.number()?)),
        WasmTypeKind::S32 => Content::S32(i32::from_le_bytes(tape.number()?)),
        WasmTypeKind::S64 => Content::S64(i64::from_le_bytes(tape.number()?)),
        WasmTypeKind::U8 => Content::U8(tape.byte()?),
        WasmTypeKind::U16 => Content::U16(u16::from_le_bytes(tape.number()?)),
        WasmTypeKind::U32 => Content::U32(u32::from_le_bytes(tape.number()?)),
        WasmTypeKind::U64 => Content::U64(u64::from_le_bytes(tape.number()?)),
        WasmTypeKind::Char => Content::Char(tape.char()?),
        WasmTypeKind::String => Content::String(tape.text()?.into()),
        _ => return told(None),
    })
}

fn take_compound(compound: &Arc<Compound>, tape: &mut Reader<'_>) -> Result<Content, Fault> {
    let own = || compound.clone();
    Ok(match &compound.parts {
        Parts::List(element) => {
            let count = tape.count()?;
            Content::List(own(), take_items(element, count, tape)?)
        }
        Parts::FixedLengthList(element, length) => {
            tape.row_end(*length == 0)?;
            Content::List(own(), take_items(element, *length as usize, tape)?)
        }
        Parts::Record(fields) => {
            Content::Record(own(), take_row(fields.iter().map(|(_, ty)| ty), tape)?)
        }
        Parts::Tuple(types) => Content::Tuple(own(), take_row(types.iter(), tape)?),
        Parts::Variant(cases) => {
            let place = tape.name(|name| cases.iter().position(|(case, _)| **case == *name))?;
            Content::Variant(own(), place, take_payload(cases[place].1.as_ref(), tape)?)
        }
        Parts::Enum(cases) => {
            let place = tape.name(|name| cases.iter().position(|case| **case == *name))?;
            Content::Enum(own(), place)
        }
        Parts::Option(some) => {
            let payload = tape.choice()?.then_some(some);
            Content::Option(own(), take_payload(payload, tape)?)
        }
        Parts::Result(ok, err) => Content::Result(
            own(),
            if tape.choice()? {
                Err(take_payload(err.as_ref(), tape)?)
            } else {
                Ok(take_payload(ok.as_ref(), tape)?)
            },
        ),
        Parts::Flags(names) => {
            let count = tape.count()?;
            let place_of = |name: &str| names.iter().position(|own| **own == *name);
            let places = tape.parts(count, |tape| tape.name(place_of))?;
            Content::Flags(own(), places.into())
        }
        Parts::Map(key, val) => {
            let count = tape.count()?;
            let entries = tape.parts(count, |tape| Ok((take(key, tape)?, take(val, tape)?)))?;
            Content::Map(own(), entries.into())
        }
    })
}

/// So many items of a list: of numbers they are taken all at once.
fn take_items(ty: &Type, count: usize, tape: &mut Reader<'_>) -> Result<Box<[Value]>, Fault> {
    macro_rules! numbers {
        ($($variant:ident, $number:ty;)*) => {
            match &ty.0 {
                $(
                    Repr::Simple(WasmTypeKind::$variant) => {
                        let make = |bytes| Value(Content::$variant(<$number>::from_le_bytes(bytes)));
                        tape.numbers(count, make)
                    }
                )*
                _ => tape.parts(count, |tape| take(ty, tape)).map(Into::into),
            }
        };
    }
    numbers! {
        S8, i8;
        S16, i16;
        S32, i32;
        S64, i64;
        U8, u8;
        U16, u16;
        U32, u32;
        U64, u64;
    }
}

fn take_row<'a>(
    types: impl ExactSizeIterator<Item = &'a Type>,
    tape: &mut Reader<'_>,
) -> Result<Box<[Value]>, Fault> {
    let mut vals = Vec::with_capacity(types.len());
    for ty in types {
        vals.push(take(ty, tape)?);
    }
    Ok(vals.into())
}

fn take_payload(ty: Option<&Type>, tape: &mut Reader<'_>) -> Result<Option<Box<Value>>, Fault> {
    ty.map(|ty| take(ty, tape).map(Box::new)).transpose()
}

/// Appends the bytes of the value.
pub(super) fn put(val: &Value, tape: &mut Vec<u8>) {
    match &val.0 {
        Content::Bool(val) => tape.push(u8::from(*val)),
        Content::S8(val) => tape.extend_from_slice(&val.to_le_bytes()),
        Content::S16(val) => tape.extend_from_slice(&val.to_le_bytes()),
        Content::S32(val) => tape.extend_from_slice(&val.to_le_bytes()),
        Content::S64(val) => tape.extend_from_slice(&val.to_le_bytes()),
        Content::U8(val) => tape.push(*val),
        Content::U16(val) => tape.extend_from_slice(&val.to_le_bytes()),
        Content::U32(val) => tape.extend_from_slice(&val.to_le_bytes()),
        Content::U64(val) => tape.extend_from_slice(&val.to_le_bytes()),
        Content::Char(val) => tape.extend_from_slice(&u32::from(*val).to_le_bytes()),
        Content::String(val) => put_text(val, tape),
        Content::List(ty, vals) => {
            if matches!(ty.parts, Parts::List(_)) {
                put_count(vals.len(), tape);
                vals.iter().for_each(|val| put(val, tape));
            } else {
                put_row(vals, tape);
            }
        }
        Content::Record(_, vals) | Content::Tuple(_, vals) => put_row(vals, tape),
        Content::Variant(ty, place, payload) => {
            put_text(ty.name(*place), tape);
            put_payload(payload, tape);
        }
        Content::Enum(ty, place) => put_text(ty.name(*place), tape),
        Content::Option(_, payload) => {
            tape.push(u8::from(payload.is_some()));
            put_payload(payload, tape);
        }
        Content::Result(_, Ok(payload)) => {
            tape.push(0);
            put_payload(payload, tape);
        }
        Content::Result(_, Err(payload)) => {
            tape.push(1);
            put_payload(payload, tape);
        }
        Content::Flags(ty, places) => {
            put_count(places.len(), tape);
            places.iter().for_each(|place| put_text(ty.name(*place), tape));
        }
        Content::Map(_, entries) => {
            put_count(entries.len(), tape);
            for (key, val) in entries.iter() {
                put(key, tape);
                put(val, tape);
            }
        }
    }
}

fn put_row(vals: &[Value], tape: &mut Vec<u8>) {
    if vals.is_empty() {
        tape.push(0);
    }
    vals.iter().for_each(|val| put(val, tape));
}

fn put_payload(payload: &Option<Box<Value>>, tape: &mut Vec<u8>) {
    if let Some(val) = payload {
        put(val, tape);
    }
}
