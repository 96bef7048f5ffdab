//! Values to tapes.
use super::VERSION;
use crate::wasm::{WasmType, WasmTypeKind, WasmValue};
use crate::writer::WriterError;
use std::borrow::Cow;

/// A tape that tells its version, with room for more.
pub(crate) fn begun(mut tape: Vec<u8>) -> Vec<u8> {
    tape.reserve(256);
    tape.push(VERSION);
    tape
}

#[inline]
pub(crate) fn put_count(count: usize, tape: &mut Vec<u8>) {
    tape.extend_from_slice(&(count as u64).to_le_bytes());
}

#[inline]
pub(crate) fn put_text(text: &str, tape: &mut Vec<u8>) {
    put_count(text.len(), tape);
    tape.extend_from_slice(text.as_bytes());
}

/// Appends the bytes of the value at the type, by its `unwrap_*`. Fields and flags may come in any
/// order, and a field that is an option may be left out.
pub(crate) fn put<T: WasmType, V: WasmValue>(
    ty: &T,
    val: &V,
    tape: &mut Vec<u8>,
) -> Result<(), WriterError> {
    let kind = val.kind();
    if !kind.has_values() {
        return Err(WriterError::UnsupportedType);
    }
    require(kind == ty.kind())?;
    match kind {
        WasmTypeKind::Bool => tape.push(u8::from(val.unwrap_bool())),
        WasmTypeKind::S8 => tape.extend_from_slice(&val.unwrap_s8().to_le_bytes()),
        WasmTypeKind::S16 => tape.extend_from_slice(&val.unwrap_s16().to_le_bytes()),
        WasmTypeKind::S32 => tape.extend_from_slice(&val.unwrap_s32().to_le_bytes()),
        WasmTypeKind::S64 => tape.extend_from_slice(&val.unwrap_s64().to_le_bytes()),
        WasmTypeKind::U8 => tape.push(val.unwrap_u8()),
        WasmTypeKind::U16 => tape.extend_from_slice(&val.unwrap_u16().to_le_bytes()),
        WasmTypeKind::U32 => tape.extend_from_slice(&val.unwrap_u32().to_le_bytes()),
        WasmTypeKind::U64 => tape.extend_from_slice(&val.unwrap_u64().to_le_bytes()),
        WasmTypeKind::Char => tape.extend_from_slice(&u32::from(val.unwrap_char()).to_le_bytes()),
        WasmTypeKind::String => put_text(&val.unwrap_string(), tape),
        _ => put_compound(kind, ty, val, tape)?,
    }
    Ok(())
}

/// So of a kind with parts.
fn put_compound<T: WasmType, V: WasmValue>(
    kind: WasmTypeKind,
    ty: &T,
    val: &V,
    tape: &mut Vec<u8>,
) -> Result<(), WriterError> {
    match kind {
        WasmTypeKind::List => {
            let element = told(ty.list_element_type())?;
            put_counted(val.unwrap_list(), tape, |item, tape| put(&element, &*item, tape))
        }
        WasmTypeKind::FixedLengthList => {
            let (element, length) = (told(ty.list_element_type())?, told(ty.list_length())?);
            let types = (0..length).map(|_| element.clone());
            put_row(types, val.unwrap_list(), tape)
        }
        WasmTypeKind::Tuple => put_row(ty.tuple_element_types(), val.unwrap_tuple(), tape),
        WasmTypeKind::Record => put_record(ty, val, tape),
        WasmTypeKind::Variant => {
            let (name, payload) = val.unwrap_variant();
            let (_, expected) = told(ty.variant_cases().find(|(case, _)| *case == name))?;
            put_text(&name, tape);
            put_payload(expected, payload, tape)
        }
        WasmTypeKind::Enum => {
            let name = val.unwrap_enum();
            require(ty.enum_cases().any(|case| case == name))?;
            put_text(&name, tape);
            Ok(())
        }
        WasmTypeKind::Option => {
            let payload = val.unwrap_option();
            tape.push(u8::from(payload.is_some()));
            let some = told(ty.option_some_type())?;
            put_payload(payload.is_some().then_some(some), payload, tape)
        }
        WasmTypeKind::Result => put_result(ty, val, tape),
        WasmTypeKind::Flags => put_flags(ty, val, tape),
        _ => put_map(ty, val, tape),
    }
}

fn put_result<T: WasmType, V: WasmValue>(
    ty: &T,
    val: &V,
    tape: &mut Vec<u8>,
) -> Result<(), WriterError> {
    let (ok, err) = told(ty.result_types())?;
    let (choice, expected, payload) = match val.unwrap_result() {
        Ok(payload) => (0, ok, payload),
        Err(payload) => (1, err, payload),
    };
    tape.push(choice);
    put_payload(expected, payload, tape)
}

fn put_flags<T: WasmType, V: WasmValue>(
    ty: &T,
    val: &V,
    tape: &mut Vec<u8>,
) -> Result<(), WriterError> {
    let names: Vec<_> = val.unwrap_flags().collect();
    let flags: Vec<_> = ty.flags_names().collect();
    require(names.iter().all(|name| flags.contains(name)))?;
    let in_order = flags.iter().filter(|flag| names.contains(flag));
    put_counted(in_order, tape, |name, tape| {
        put_text(name, tape);
        Ok(())
    })
}

fn put_map<T: WasmType, V: WasmValue>(
    ty: &T,
    val: &V,
    tape: &mut Vec<u8>,
) -> Result<(), WriterError> {
    let (key_type, val_type) = told(ty.map_key_value_types())?;
    put_counted(val.unwrap_map(), tape, |(key, val), tape| {
        put(&key_type, &*key, tape)?;
        put(&val_type, &*val, tape)
    })
}

fn require(fits: bool) -> Result<(), WriterError> {
    fits.then_some(()).ok_or(WriterError::NoType)
}

/// The part of a type; the value is not of a type that tells none.
fn told<T>(part: Option<T>) -> Result<T, WriterError> {
    part.ok_or(WriterError::NoType)
}

/// Appends the count of the items, and these.
fn put_counted<T>(
    items: impl Iterator<Item = T>,
    tape: &mut Vec<u8>,
    mut put_item: impl FnMut(T, &mut Vec<u8>) -> Result<(), WriterError>,
) -> Result<(), WriterError> {
    let place = tape.len();
    put_count(0, tape);
    let mut count = 0u64;
    for item in items {
        put_item(item, tape)?;
        count += 1;
    }
    tape[place..place + 8].copy_from_slice(&count.to_le_bytes());
    Ok(())
}

/// Appends the values, one at each type; 0 where there are none.
fn put_row<'a, T: WasmType, V: WasmValue + 'a>(
    types: impl Iterator<Item = T>,
    mut vals: impl Iterator<Item = Cow<'a, V>>,
    tape: &mut Vec<u8>,
) -> Result<(), WriterError> {
    let mut is_empty = true;
    for ty in types {
        put(&ty, &*told(vals.next())?, tape)?;
        is_empty = false;
    }
    if is_empty {
        tape.push(0);
    }
    require(vals.next().is_none())
}

/// Appends the values of the fields, in the type's order; 0 where there are none.
fn put_record<T: WasmType, V: WasmValue>(
    ty: &T,
    val: &V,
    tape: &mut Vec<u8>,
) -> Result<(), WriterError> {
    let mut vals: Vec<_> = val.unwrap_record().map(Some).collect();
    let mut used = 0;
    let mut is_empty = true;
    for (place, (name, field)) in ty.record_fields().enumerate() {
        is_empty = false;
        let is_it = |val: &Option<(Cow<str>, _)>| val.as_ref().is_some_and(|(own, _)| *own == name);
        // mostly it is where the type has it
        let found = match vals.get(place) {
            Some(val) if is_it(val) => Some(place),
            _ => vals.iter().position(is_it),
        };
        match found.and_then(|place| vals[place].take()) {
            Some((_, val)) => {
                put(&field, &*val, tape)?;
                used += 1;
            }
            None => {
                require(field.kind() == WasmTypeKind::Option)?;
                tape.push(0);
            }
        }
    }
    if is_empty {
        tape.push(0);
    }
    require(used == vals.len())
}

fn put_payload<T: WasmType, V: WasmValue>(
    ty: Option<T>,
    payload: Option<Cow<'_, V>>,
    tape: &mut Vec<u8>,
) -> Result<(), WriterError> {
    match (ty, payload) {
        (Some(ty), Some(val)) => put(&ty, &*val, tape),
        (None, None) => Ok(()),
        _ => Err(WriterError::NoType),
    }
}
