//! Types.
use super::fmt::spelling;
use std::borrow::Cow;
use std::fmt;

/// The kind of a [`WasmType`].
#[derive(Clone, Copy, Debug, PartialEq, Eq, Hash)]
#[non_exhaustive]
#[allow(missing_docs)]
pub enum WasmTypeKind {
    Bool,
    S8,
    S16,
    S32,
    S64,
    U8,
    U16,
    U32,
    U64,
    F32,
    F64,
    Char,
    String,
    List,
    FixedLengthList,
    Record,
    Tuple,
    Variant,
    Enum,
    Option,
    Result,
    Flags,
    Map,
    #[doc(hidden)]
    Unsupported,
}

impl WasmTypeKind {
    /// The word of the kind.
    pub(crate) fn word(self) -> &'static str {
        match self {
            WasmTypeKind::Bool => "bool",
            WasmTypeKind::S8 => "s8",
            WasmTypeKind::S16 => "s16",
            WasmTypeKind::S32 => "s32",
            WasmTypeKind::S64 => "s64",
            WasmTypeKind::U8 => "u8",
            WasmTypeKind::U16 => "u16",
            WasmTypeKind::U32 => "u32",
            WasmTypeKind::U64 => "u64",
            WasmTypeKind::F32 => "f32",
            WasmTypeKind::F64 => "f64",
            WasmTypeKind::Char => "char",
            WasmTypeKind::String => "string",
            WasmTypeKind::List => "list",
            WasmTypeKind::FixedLengthList => "list<_,N>",
            WasmTypeKind::Record => "record",
            WasmTypeKind::Tuple => "tuple",
            WasmTypeKind::Variant => "variant",
            WasmTypeKind::Enum => "enum",
            WasmTypeKind::Option => "option",
            WasmTypeKind::Result => "result",
            WasmTypeKind::Flags => "flags",
            WasmTypeKind::Map => "map",
            WasmTypeKind::Unsupported => "<<UNSUPPORTED>>",
        }
    }

    /// Whether a type of this kind has no parts.
    pub(crate) const fn is_simple(self) -> bool {
        use WasmTypeKind::*;
        matches!(
            self,
            Bool | S8 | S16 | S32 | S64 | U8 | U16 | U32 | U64 | F32 | F64 | Char | String
        )
    }

    /// Whether types of this kind have values here.
    pub(crate) const fn has_values(self) -> bool {
        !matches!(self, WasmTypeKind::F32 | WasmTypeKind::F64 | WasmTypeKind::Unsupported)
    }

    /// Whether the keys of a map may be of this kind.
    pub(crate) const fn is_of_keys(self) -> bool {
        self.is_simple() && self.has_values()
    }
}

impl fmt::Display for WasmTypeKind {
    fn fmt(&self, f: &mut fmt::Formatter<'_>) -> fmt::Result {
        f.write_str(self.word())
    }
}

/// A type of values that can be read and written; [`value::Type`](crate::value::Type) is one.
///
/// A method that returns parts is called only of types of the [`kind`](WasmType::kind) that has
/// them. One that is not written panics where it is called. A type has finitely many parts, and the
/// names in it are distinct labels: at others nothing is read.
pub trait WasmType: Clone + Sized {
    /// The kind of the type.
    fn kind(&self) -> WasmTypeKind;

    /// The type of a list's elements, of either kind; `None` for another type.
    fn list_element_type(&self) -> Option<Self> {
        unimplemented!()
    }

    /// How many elements a fixed-length list has; `None` for another type. At a fixed-length list
    /// that doesn't tell it nothing is read.
    fn list_length(&self) -> Option<u32> {
        None
    }

    /// The names and types of a record's fields, in their order; none for another type.
    fn record_fields(&self) -> Box<dyn Iterator<Item = (Cow<'_, str>, Self)> + '_> {
        unimplemented!()
    }

    /// The types of a tuple's values, in their order; none for another type.
    fn tuple_element_types(&self) -> Box<dyn Iterator<Item = Self> + '_> {
        unimplemented!()
    }

    /// The names of a variant's cases, each with the type of its payload, if it has one; none for
    /// another type.
    fn variant_cases(&self) -> Box<dyn Iterator<Item = (Cow<'_, str>, Option<Self>)> + '_> {
        unimplemented!()
    }

    /// The names of an enum's cases; none for another type.
    fn enum_cases(&self) -> Box<dyn Iterator<Item = Cow<'_, str>> + '_> {
        unimplemented!()
    }

    /// The type of an option's payload; `None` for another type.
    fn option_some_type(&self) -> Option<Self> {
        unimplemented!()
    }

    /// The types of a result's payloads, `ok` and `err`, as far as there are such; `None` for
    /// another type.
    fn result_types(&self) -> Option<(Option<Self>, Option<Self>)> {
        unimplemented!()
    }

    /// The names of flags, in their order; none for another type.
    fn flags_names(&self) -> Box<dyn Iterator<Item = Cow<'_, str>> + '_> {
        unimplemented!()
    }

    /// The types of a map's keys and values; `None` for another type.
    fn map_key_value_types(&self) -> Option<(Self, Self)> {
        unimplemented!()
    }

    /// The text that spells the type, as in WIT; `None` where no text does. A type that keeps its
    /// text is quicker to read at.
    fn spelled(&self) -> Option<Cow<'_, str>> {
        spelling(self).map(Cow::Owned)
    }
}
