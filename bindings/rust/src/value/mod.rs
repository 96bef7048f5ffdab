//! Values of any type, and their types.
mod convert;
mod func;
mod parse;
mod tape;
mod ty;

pub use convert::ValueTyped;
pub use func::FuncType;
pub use parse::{TypeError, TypeErrorKind};
pub use ty::Type;

use crate::tape::{Fault, Reader};
use crate::wasm::{ensure_type_kind, WasmType, WasmTypeKind, WasmValue, WasmValueError};
use crate::writer::WriterError;
use std::borrow::Cow;
use std::collections::BTreeMap;
use std::sync::Arc;
use ty::{Compound, Parts, Repr};

/// A value of any type but `f32` and `f64`, which it knows. It is made and looked into by the
/// methods of [`WasmValue`], or made of Rust's own by `From`.
#[derive(Clone, Debug, PartialEq, Eq)]
pub struct Value(Content);

/// What a value is; one with parts also its type, to which they fit.
#[derive(Clone, Debug, PartialEq, Eq)]
enum Content {
    Bool(bool),
    S8(i8),
    S16(i16),
    S32(i32),
    S64(i64),
    U8(u8),
    U16(u16),
    U32(u32),
    U64(u64),
    Char(char),
    String(Box<str>),
    /// Of either kind of list.
    List(Arc<Compound>, Box<[Value]>),
    Record(Arc<Compound>, Box<[Value]>),
    Tuple(Arc<Compound>, Box<[Value]>),
    /// By the case's place in the type.
    Variant(Arc<Compound>, usize, Option<Box<Value>>),
    Enum(Arc<Compound>, usize),
    Option(Arc<Compound>, Option<Box<Value>>),
    Result(Arc<Compound>, Result<Option<Box<Value>>, Option<Box<Value>>>),
    /// By their places in the type, in its order.
    Flags(Arc<Compound>, Box<[usize]>),
    Map(Arc<Compound>, Box<[(Value, Value)]>),
}

impl Value {
    /// The kind of a value without parts.
    fn leaf_kind(&self) -> Option<WasmTypeKind> {
        Some(match &self.0 {
            Content::Bool(_) => WasmTypeKind::Bool,
            Content::S8(_) => WasmTypeKind::S8,
            Content::S16(_) => WasmTypeKind::S16,
            Content::S32(_) => WasmTypeKind::S32,
            Content::S64(_) => WasmTypeKind::S64,
            Content::U8(_) => WasmTypeKind::U8,
            Content::U16(_) => WasmTypeKind::U16,
            Content::U32(_) => WasmTypeKind::U32,
            Content::U64(_) => WasmTypeKind::U64,
            Content::Char(_) => WasmTypeKind::Char,
            Content::String(_) => WasmTypeKind::String,
            _ => return None,
        })
    }

    /// The type of a value with parts.
    fn compound(&self) -> Option<&Arc<Compound>> {
        match &self.0 {
            Content::List(ty, _)
            | Content::Record(ty, _)
            | Content::Tuple(ty, _)
            | Content::Variant(ty, _, _)
            | Content::Enum(ty, _)
            | Content::Option(ty, _)
            | Content::Result(ty, _)
            | Content::Flags(ty, _)
            | Content::Map(ty, _) => Some(ty),
            _ => None,
        }
    }

    /// Whether the value is of the type. It knows its own, so its parts aren't looked at.
    fn is_of(&self, ty: &Type) -> bool {
        match (&ty.0, self.compound()) {
            (Repr::Simple(kind), None) => self.leaf_kind() == Some(*kind),
            (Repr::Compound(ty), Some(own)) => Arc::ptr_eq(ty, own) || ty == own,
            _ => false,
        }
    }

    /// The value, where it is of the type.
    fn checked(self, ty: &Type) -> Result<Self, WasmValueError> {
        if self.is_of(ty) {
            Ok(self)
        } else {
            Err(WasmValueError::wrong_value_type(ty, &self))
        }
    }
}

/// What a type of this kind is made of.
fn opened(ty: &Type, kind: WasmTypeKind) -> Result<(&Arc<Compound>, &Parts), WasmValueError> {
    ensure_type_kind(ty, kind)?;
    match &ty.0 {
        Repr::Compound(compound) => Ok((compound, &compound.parts)),
        Repr::Simple(_) => Err(wrong_kind(ty, kind)),
    }
}

fn wrong_kind(ty: &Type, kind: WasmTypeKind) -> WasmValueError {
    WasmValueError::WrongTypeKind { kind, ty: ty.to_string() }
}

/// The payload, where it is there exactly as the case says, and of its type.
fn checked_payload(
    case: &str,
    ty: &Option<Type>,
    val: Option<Value>,
) -> Result<Option<Box<Value>>, WasmValueError> {
    match (ty, val) {
        (Some(ty), Some(val)) => Ok(Some(Box::new(val.checked(ty)?))),
        (None, None) => Ok(None),
        (Some(_), None) => Err(WasmValueError::MissingPayload(case.to_owned())),
        (None, Some(_)) => Err(WasmValueError::UnexpectedPayload(case.to_owned())),
    }
}

/// Panics: a view was asked of a value of another kind.
fn not_of(kind: WasmTypeKind, val: &Value) -> ! {
    panic!("a view of a {kind} was asked of a {}", val.kind())
}

macro_rules! scalars {
    ($($make:ident, $unwrap:ident, $ty:ty, $variant:ident;)*) => {
        $(
            fn $make(val: $ty) -> Self {
                Value(Content::$variant(val))
            }

            fn $unwrap(&self) -> $ty {
                match &self.0 {
                    Content::$variant(val) => *val,
                    _ => not_of(WasmTypeKind::$variant, self),
                }
            }
        )*
    };
}

impl WasmValue for Value {
    type Type = Type;

    fn kind(&self) -> WasmTypeKind {
        match (self.leaf_kind(), self.compound()) {
            (Some(kind), _) => kind,
            (None, Some(compound)) => compound.kind(),
            (None, None) => WasmTypeKind::Unsupported,
        }
    }

    fn ty(&self) -> Option<Type> {
        match self.compound() {
            Some(compound) => Some(Type(Repr::Compound(compound.clone()))),
            None => self.leaf_kind().and_then(Type::simple),
        }
    }

    scalars! {
        make_bool, unwrap_bool, bool, Bool;
        make_s8, unwrap_s8, i8, S8;
        make_s16, unwrap_s16, i16, S16;
        make_s32, unwrap_s32, i32, S32;
        make_s64, unwrap_s64, i64, S64;
        make_u8, unwrap_u8, u8, U8;
        make_u16, unwrap_u16, u16, U16;
        make_u32, unwrap_u32, u32, U32;
        make_u64, unwrap_u64, u64, U64;
        make_char, unwrap_char, char, Char;
    }

    fn make_string(val: Cow<str>) -> Self {
        Value(Content::String(val.into()))
    }

    fn make_list(ty: &Type, vals: impl IntoIterator<Item = Self>) -> Result<Self, WasmValueError> {
        let kind = match ty.kind() {
            WasmTypeKind::FixedLengthList => WasmTypeKind::FixedLengthList,
            _ => WasmTypeKind::List,
        };
        let (compound, parts) = opened(ty, kind)?;
        let vals: Vec<Value> = vals.into_iter().collect();
        let element = match parts {
            Parts::List(element) => element,
            Parts::FixedLengthList(element, length) => {
                let (want, got) = (usize::try_from(*length).unwrap_or(usize::MAX), vals.len());
                if want != got {
                    return Err(WasmValueError::WrongNumberOfElements { want, got });
                }
                element
            }
            _ => return Err(wrong_kind(ty, kind)),
        };
        if let Some(other) = vals.iter().find(|val| !val.is_of(element)) {
            return Err(WasmValueError::wrong_value_type(element, other));
        }
        Ok(Value(Content::List(compound.clone(), vals.into())))
    }

    fn make_record<'a>(
        ty: &Type,
        fields: impl IntoIterator<Item = (&'a str, Self)>,
    ) -> Result<Self, WasmValueError> {
        let (compound, parts) = opened(ty, WasmTypeKind::Record)?;
        let Parts::Record(types) = parts else {
            return Err(wrong_kind(ty, WasmTypeKind::Record));
        };
        let mut given: BTreeMap<&str, Value> = fields.into_iter().collect();
        let mut vals = Vec::with_capacity(types.len());
        for (name, ty) in types.iter() {
            let val = given
                .remove(&**name)
                .ok_or_else(|| WasmValueError::MissingField(name.to_string()))?;
            vals.push(val.checked(ty)?);
        }
        if let Some(unknown) = given.into_keys().next() {
            return Err(WasmValueError::UnknownField(unknown.to_owned()));
        }
        Ok(Value(Content::Record(compound.clone(), vals.into())))
    }

    fn make_tuple(ty: &Type, vals: impl IntoIterator<Item = Self>) -> Result<Self, WasmValueError> {
        let (compound, parts) = opened(ty, WasmTypeKind::Tuple)?;
        let Parts::Tuple(types) = parts else {
            return Err(wrong_kind(ty, WasmTypeKind::Tuple));
        };
        let vals: Vec<Value> = vals.into_iter().collect();
        let (want, got) = (types.len(), vals.len());
        if want != got {
            return Err(WasmValueError::WrongNumberOfTupleValues { want, got });
        }
        for (ty, val) in types.iter().zip(&vals) {
            if !val.is_of(ty) {
                return Err(WasmValueError::wrong_value_type(ty, val));
            }
        }
        Ok(Value(Content::Tuple(compound.clone(), vals.into())))
    }

    fn make_variant(ty: &Type, case: &str, val: Option<Self>) -> Result<Self, WasmValueError> {
        let (compound, parts) = opened(ty, WasmTypeKind::Variant)?;
        let Parts::Variant(cases) = parts else {
            return Err(wrong_kind(ty, WasmTypeKind::Variant));
        };
        let place = cases.iter().position(|(name, _)| **name == *case);
        let place = place.ok_or_else(|| WasmValueError::UnknownCase(case.to_owned()))?;
        let payload = checked_payload(case, &cases[place].1, val)?;
        Ok(Value(Content::Variant(compound.clone(), place, payload)))
    }

    fn make_enum(ty: &Type, case: &str) -> Result<Self, WasmValueError> {
        let (compound, parts) = opened(ty, WasmTypeKind::Enum)?;
        let Parts::Enum(cases) = parts else {
            return Err(wrong_kind(ty, WasmTypeKind::Enum));
        };
        let place = cases.iter().position(|name| **name == *case);
        let place = place.ok_or_else(|| WasmValueError::UnknownCase(case.to_owned()))?;
        Ok(Value(Content::Enum(compound.clone(), place)))
    }

    fn make_option(ty: &Type, val: Option<Self>) -> Result<Self, WasmValueError> {
        let (compound, parts) = opened(ty, WasmTypeKind::Option)?;
        let Parts::Option(some) = parts else {
            return Err(wrong_kind(ty, WasmTypeKind::Option));
        };
        let val = val.map(|val| val.checked(some)).transpose()?;
        Ok(Value(Content::Option(compound.clone(), val.map(Box::new))))
    }

    fn make_result(
        ty: &Type,
        val: Result<Option<Self>, Option<Self>>,
    ) -> Result<Self, WasmValueError> {
        let (compound, parts) = opened(ty, WasmTypeKind::Result)?;
        let Parts::Result(ok, err) = parts else {
            return Err(wrong_kind(ty, WasmTypeKind::Result));
        };
        let val = match val {
            Ok(val) => Ok(checked_payload("ok", ok, val)?),
            Err(val) => Err(checked_payload("err", err, val)?),
        };
        Ok(Value(Content::Result(compound.clone(), val)))
    }

    fn make_flags<'a>(
        ty: &Type,
        names: impl IntoIterator<Item = &'a str>,
    ) -> Result<Self, WasmValueError> {
        let (compound, parts) = opened(ty, WasmTypeKind::Flags)?;
        let Parts::Flags(flags) = parts else {
            return Err(wrong_kind(ty, WasmTypeKind::Flags));
        };
        let place_of = |name: &str| {
            let place = flags.iter().position(|flag| **flag == *name);
            place.ok_or_else(|| WasmValueError::UnknownCase(name.to_owned()))
        };
        let mut places = names.into_iter().map(place_of).collect::<Result<Vec<_>, _>>()?;
        places.sort_unstable();
        places.dedup();
        Ok(Value(Content::Flags(compound.clone(), places.into())))
    }

    fn make_map(
        ty: &Type,
        entries: impl IntoIterator<Item = (Self, Self)>,
    ) -> Result<Self, WasmValueError> {
        let (compound, parts) = opened(ty, WasmTypeKind::Map)?;
        let Parts::Map(key_type, val_type) = parts else {
            return Err(wrong_kind(ty, WasmTypeKind::Map));
        };
        let checked =
            |(key, val): (Value, Value)| Ok((key.checked(key_type)?, val.checked(val_type)?));
        let entries =
            entries.into_iter().map(checked).collect::<Result<Vec<_>, WasmValueError>>()?;
        Ok(Value(Content::Map(compound.clone(), entries.into())))
    }

    fn unwrap_string(&self) -> Cow<'_, str> {
        match &self.0 {
            Content::String(val) => Cow::Borrowed(val),
            _ => not_of(WasmTypeKind::String, self),
        }
    }

    fn unwrap_list(&self) -> Box<dyn Iterator<Item = Cow<'_, Self>> + '_> {
        match &self.0 {
            Content::List(_, vals) => Box::new(vals.iter().map(Cow::Borrowed)),
            _ => not_of(WasmTypeKind::List, self),
        }
    }

    fn unwrap_record(&self) -> Box<dyn Iterator<Item = (Cow<'_, str>, Cow<'_, Self>)> + '_> {
        match &self.0 {
            Content::Record(ty, vals) => {
                let names = ty.fields().iter().map(|(name, _)| Cow::Borrowed(&**name));
                Box::new(names.zip(vals.iter().map(Cow::Borrowed)))
            }
            _ => not_of(WasmTypeKind::Record, self),
        }
    }

    fn unwrap_tuple(&self) -> Box<dyn Iterator<Item = Cow<'_, Self>> + '_> {
        match &self.0 {
            Content::Tuple(_, vals) => Box::new(vals.iter().map(Cow::Borrowed)),
            _ => not_of(WasmTypeKind::Tuple, self),
        }
    }

    fn unwrap_variant(&self) -> (Cow<'_, str>, Option<Cow<'_, Self>>) {
        match &self.0 {
            Content::Variant(ty, place, payload) => {
                (Cow::Borrowed(ty.name(*place)), payload.as_deref().map(Cow::Borrowed))
            }
            _ => not_of(WasmTypeKind::Variant, self),
        }
    }

    fn unwrap_enum(&self) -> Cow<'_, str> {
        match &self.0 {
            Content::Enum(ty, place) => Cow::Borrowed(ty.name(*place)),
            _ => not_of(WasmTypeKind::Enum, self),
        }
    }

    fn unwrap_option(&self) -> Option<Cow<'_, Self>> {
        match &self.0 {
            Content::Option(_, val) => val.as_deref().map(Cow::Borrowed),
            _ => not_of(WasmTypeKind::Option, self),
        }
    }

    fn unwrap_result(&self) -> Result<Option<Cow<'_, Self>>, Option<Cow<'_, Self>>> {
        match &self.0 {
            Content::Result(_, Ok(val)) => Ok(val.as_deref().map(Cow::Borrowed)),
            Content::Result(_, Err(val)) => Err(val.as_deref().map(Cow::Borrowed)),
            _ => not_of(WasmTypeKind::Result, self),
        }
    }

    fn unwrap_flags(&self) -> Box<dyn Iterator<Item = Cow<'_, str>> + '_> {
        match &self.0 {
            Content::Flags(ty, places) => {
                Box::new(places.iter().map(|place| Cow::Borrowed(ty.name(*place))))
            }
            _ => not_of(WasmTypeKind::Flags, self),
        }
    }

    fn unwrap_map(&self) -> Box<dyn Iterator<Item = (Cow<'_, Self>, Cow<'_, Self>)> + '_> {
        match &self.0 {
            Content::Map(_, entries) => {
                Box::new(entries.iter().map(|(key, val)| (Cow::Borrowed(key), Cow::Borrowed(val))))
            }
            _ => not_of(WasmTypeKind::Map, self),
        }
    }

    fn take_from_tape(ty: &Type, tape: &mut Reader<'_>) -> Result<Self, Fault> {
        tape::take(ty, tape)
    }

    fn put_to_tape(&self, ty: &Type, tape: &mut Vec<u8>) -> Result<(), WriterError> {
        if !self.is_of(ty) {
            return Err(WriterError::NoType);
        }
        tape::put(self, tape);
        Ok(())
    }
}
