//! The types of values.
use super::parse::{self, TypeError};
use crate::wasm::{spelling, DisplayType, WasmType, WasmTypeKind};
use std::borrow::Cow;
use std::fmt;
use std::str::FromStr;
use std::sync::{Arc, OnceLock};

/// The type of a [`Value`](super::Value). A clone is cheap, and it can be sent to and shared with
/// other threads.
#[derive(Clone)]
pub struct Type(pub(super) Repr);

#[derive(Clone)]
pub(super) enum Repr {
    Simple(WasmTypeKind),
    Compound(Arc<Compound>),
}

/// A type with parts.
pub(super) struct Compound {
    pub(super) parts: Parts,
    /// The text that spells it, where one does, once it was asked for.
    spelled: OnceLock<Option<Box<str>>>,
}

#[derive(PartialEq, Eq)]
pub(super) enum Parts {
    List(Type),
    FixedLengthList(Type, u32),
    Record(Box<[(Box<str>, Type)]>),
    Tuple(Box<[Type]>),
    Variant(Box<[(Box<str>, Option<Type>)]>),
    Enum(Box<[Box<str>]>),
    Option(Type),
    Result(Option<Type>, Option<Type>),
    Flags(Box<[Box<str>]>),
    Map(Type, Type),
}

impl Type {
    /// The type `bool`.
    pub const BOOL: Self = Self(Repr::Simple(WasmTypeKind::Bool));
    /// The type `s8`.
    pub const S8: Self = Self(Repr::Simple(WasmTypeKind::S8));
    /// The type `s16`.
    pub const S16: Self = Self(Repr::Simple(WasmTypeKind::S16));
    /// The type `s32`.
    pub const S32: Self = Self(Repr::Simple(WasmTypeKind::S32));
    /// The type `s64`.
    pub const S64: Self = Self(Repr::Simple(WasmTypeKind::S64));
    /// The type `u8`.
    pub const U8: Self = Self(Repr::Simple(WasmTypeKind::U8));
    /// The type `u16`.
    pub const U16: Self = Self(Repr::Simple(WasmTypeKind::U16));
    /// The type `u32`.
    pub const U32: Self = Self(Repr::Simple(WasmTypeKind::U32));
    /// The type `u64`.
    pub const U64: Self = Self(Repr::Simple(WasmTypeKind::U64));
    /// The type `f32`, which has no values here.
    pub const F32: Self = Self(Repr::Simple(WasmTypeKind::F32));
    /// The type `f64`, which has no values here.
    pub const F64: Self = Self(Repr::Simple(WasmTypeKind::F64));
    /// The type `char`.
    pub const CHAR: Self = Self(Repr::Simple(WasmTypeKind::Char));
    /// The type `string`.
    pub const STRING: Self = Self(Repr::Simple(WasmTypeKind::String));

    fn compound(parts: Parts) -> Self {
        Type(Repr::Compound(Arc::new(Compound { parts, spelled: OnceLock::new() })))
    }

    /// The type that the text spells, as in WIT: `record { name: string, size: option<u32> }`.
    ///
    /// # Errors
    /// Where it spells none, why and where.
    pub fn parse(text: &str) -> Result<Self, TypeError> {
        parse::type_of(text)
    }

    /// The type of this kind, where it has no parts.
    pub fn simple(kind: WasmTypeKind) -> Option<Self> {
        kind.is_simple().then_some(Type(Repr::Simple(kind)))
    }

    /// The same of a kind without parts.
    #[doc(hidden)]
    pub const fn must_simple(kind: WasmTypeKind) -> Self {
        assert!(kind.is_simple(), "the kind has parts");
        Type(Repr::Simple(kind))
    }

    /// Lists of these elements.
    pub fn list(element_type: impl Into<Self>) -> Self {
        Self::compound(Parts::List(element_type.into()))
    }

    /// Lists of so many of these elements.
    pub fn fixed_length_list(element_type: impl Into<Self>, elements: u32) -> Self {
        Self::compound(Parts::FixedLengthList(element_type.into(), elements))
    }

    /// Records of these fields; `None` where there are none.
    pub fn record<T: Into<Box<str>>>(
        field_types: impl IntoIterator<Item = (T, Self)>,
    ) -> Option<Self> {
        let fields: Box<[_]> =
            field_types.into_iter().map(|(name, ty)| (name.into(), ty)).collect();
        (!fields.is_empty()).then(|| Self::compound(Parts::Record(fields)))
    }

    /// Tuples of these values; `None` where there are none.
    pub fn tuple(element_types: impl Into<Box<[Self]>>) -> Option<Self> {
        let types = element_types.into();
        (!types.is_empty()).then(|| Self::compound(Parts::Tuple(types)))
    }

    /// Variants of these cases; `None` where there are none.
    pub fn variant<T: Into<Box<str>>>(
        cases: impl IntoIterator<Item = (T, Option<Self>)>,
    ) -> Option<Self> {
        let cases: Box<[_]> = cases.into_iter().map(|(name, ty)| (name.into(), ty)).collect();
        (!cases.is_empty()).then(|| Self::compound(Parts::Variant(cases)))
    }

    /// Enums of these cases; `None` where there are none.
    pub fn enum_ty<T: Into<Box<str>>>(cases: impl IntoIterator<Item = T>) -> Option<Self> {
        let cases: Box<[_]> = cases.into_iter().map(Into::into).collect();
        (!cases.is_empty()).then(|| Self::compound(Parts::Enum(cases)))
    }

    /// Options of this payload.
    pub fn option(some: Self) -> Self {
        Self::compound(Parts::Option(some))
    }

    /// Results of these payloads, as far as there are such.
    pub fn result(ok: Option<Self>, err: Option<Self>) -> Self {
        Self::compound(Parts::Result(ok, err))
    }

    /// Flags of these names; `None` where there are none.
    pub fn flags<T: Into<Box<str>>>(flags: impl IntoIterator<Item = T>) -> Option<Self> {
        let flags: Box<[_]> = flags.into_iter().map(Into::into).collect();
        (!flags.is_empty()).then(|| Self::compound(Parts::Flags(flags)))
    }

    /// Maps of these keys and values; `None` where the keys are no bools, whole numbers, chars or
    /// strings.
    pub fn map(key_type: impl Into<Self>, value_type: impl Into<Self>) -> Option<Self> {
        let key = key_type.into();
        key.kind().is_of_keys().then(|| Self::compound(Parts::Map(key, value_type.into())))
    }

    /// The type that the other one is; `None` where it has an unsupported part or a row without
    /// parts.
    pub fn from_wasm_type(ty: &impl WasmType) -> Option<Self> {
        super::convert::from_wasm_type(ty)
    }

    /// What the type is made of.
    pub(super) fn parts(&self) -> Option<&Parts> {
        match &self.0 {
            Repr::Simple(_) => None,
            Repr::Compound(compound) => Some(&compound.parts),
        }
    }
}

impl PartialEq for Type {
    fn eq(&self, other: &Self) -> bool {
        match (&self.0, &other.0) {
            (Repr::Simple(one), Repr::Simple(other)) => one == other,
            (Repr::Compound(one), Repr::Compound(other)) => {
                Arc::ptr_eq(one, other) || one.parts == other.parts
            }
            _ => false,
        }
    }
}

impl Eq for Type {}

impl Compound {
    pub(super) fn kind(&self) -> WasmTypeKind {
        match &self.parts {
            Parts::List(_) => WasmTypeKind::List,
            Parts::FixedLengthList(..) => WasmTypeKind::FixedLengthList,
            Parts::Record(_) => WasmTypeKind::Record,
            Parts::Tuple(_) => WasmTypeKind::Tuple,
            Parts::Variant(_) => WasmTypeKind::Variant,
            Parts::Enum(_) => WasmTypeKind::Enum,
            Parts::Option(_) => WasmTypeKind::Option,
            Parts::Result(..) => WasmTypeKind::Result,
            Parts::Flags(_) => WasmTypeKind::Flags,
            Parts::Map(..) => WasmTypeKind::Map,
        }
    }
}

impl PartialEq for Compound {
    fn eq(&self, other: &Self) -> bool {
        std::ptr::eq(self, other) || self.parts == other.parts
    }
}

impl Eq for Compound {}

impl fmt::Debug for Type {
    fn fmt(&self, f: &mut fmt::Formatter<'_>) -> fmt::Result {
        write!(f, "Type({self})")
    }
}

impl fmt::Debug for Compound {
    fn fmt(&self, f: &mut fmt::Formatter<'_>) -> fmt::Result {
        match self.spelled.get() {
            Some(Some(text)) => f.write_str(text),
            _ => f.write_str(self.kind().word()),
        }
    }
}

impl fmt::Display for Type {
    fn fmt(&self, f: &mut fmt::Formatter<'_>) -> fmt::Result {
        DisplayType(self).fmt(f)
    }
}

/// As [`Type::parse`].
impl FromStr for Type {
    type Err = TypeError;

    fn from_str(text: &str) -> Result<Self, TypeError> {
        Type::parse(text)
    }
}

fn borrowed(name: &str) -> Cow<'_, str> {
    Cow::Borrowed(name)
}

impl WasmType for Type {
    fn kind(&self) -> WasmTypeKind {
        match &self.0 {
            Repr::Simple(kind) => *kind,
            Repr::Compound(compound) => compound.kind(),
        }
    }

    fn list_element_type(&self) -> Option<Self> {
        match self.parts() {
            Some(Parts::List(element) | Parts::FixedLengthList(element, _)) => {
                Some(element.clone())
            }
            _ => None,
        }
    }

    fn list_length(&self) -> Option<u32> {
        match self.parts() {
            Some(Parts::FixedLengthList(_, length)) => Some(*length),
            _ => None,
        }
    }

    fn record_fields(&self) -> Box<dyn Iterator<Item = (Cow<'_, str>, Self)> + '_> {
        let fields: &[_] = match self.parts() {
            Some(Parts::Record(fields)) => fields,
            _ => &[],
        };
        Box::new(fields.iter().map(|(name, ty)| (borrowed(name), ty.clone())))
    }

    fn tuple_element_types(&self) -> Box<dyn Iterator<Item = Self> + '_> {
        let types: &[_] = match self.parts() {
            Some(Parts::Tuple(types)) => types,
            _ => &[],
        };
        Box::new(types.iter().cloned())
    }

    fn variant_cases(&self) -> Box<dyn Iterator<Item = (Cow<'_, str>, Option<Self>)> + '_> {
        let cases: &[_] = match self.parts() {
            Some(Parts::Variant(cases)) => cases,
            _ => &[],
        };
        Box::new(cases.iter().map(|(name, ty)| (borrowed(name), ty.clone())))
    }

    fn enum_cases(&self) -> Box<dyn Iterator<Item = Cow<'_, str>> + '_> {
        let cases: &[_] = match self.parts() {
            Some(Parts::Enum(cases)) => cases,
            _ => &[],
        };
        Box::new(cases.iter().map(|name| borrowed(name)))
    }

    fn option_some_type(&self) -> Option<Self> {
        match self.parts() {
            Some(Parts::Option(some)) => Some(some.clone()),
            _ => None,
        }
    }

    fn result_types(&self) -> Option<(Option<Self>, Option<Self>)> {
        match self.parts() {
            Some(Parts::Result(ok, err)) => Some((ok.clone(), err.clone())),
            _ => None,
        }
    }

    fn flags_names(&self) -> Box<dyn Iterator<Item = Cow<'_, str>> + '_> {
        let names: &[_] = match self.parts() {
            Some(Parts::Flags(names)) => names,
            _ => &[],
        };
        Box::new(names.iter().map(|name| borrowed(name)))
    }

    fn map_key_value_types(&self) -> Option<(Self, Self)> {
        match self.parts() {
            Some(Parts::Map(key, value)) => Some((key.clone(), value.clone())),
            _ => None,
        }
    }

    fn spelled(&self) -> Option<Cow<'_, str>> {
        match &self.0 {
            Repr::Simple(kind) => Some(Cow::Borrowed(kind.word())),
            Repr::Compound(compound) => {
                let kept =
                    compound.spelled.get_or_init(|| spelling(self).map(String::into_boxed_str));
                kept.as_deref().map(Cow::Borrowed)
            }
        }
    }
}

#[cfg(test)]
mod tests {
    use super::*;

    #[test]
    fn equal_types_need_not_be_one() {
        let make = || {
            Type::record([("a", Type::U8), ("b", Type::map(Type::CHAR, Type::BOOL).unwrap())])
                .unwrap()
        };
        assert_eq!(make(), make());
        assert_ne!(make(), Type::record([("a", Type::U8)]).unwrap());
        assert_ne!(Type::list(Type::U8), Type::fixed_length_list(Type::U8, 1));
        assert_ne!(Type::U8, Type::list(Type::U8));
    }

    #[test]
    fn rows_have_parts_and_keys_are_simple() {
        assert_eq!(Type::record::<&str>([]), None);
        assert_eq!(Type::tuple(Vec::new()), None);
        assert_eq!(Type::variant::<&str>([]), None);
        assert_eq!(Type::enum_ty::<&str>([]), None);
        assert_eq!(Type::flags::<&str>([]), None);
        assert_eq!(Type::map(Type::F32, Type::U8), None);
        assert_eq!(Type::map(Type::list(Type::U8), Type::U8), None);
        assert_eq!(Type::simple(WasmTypeKind::List), None);
    }
}
