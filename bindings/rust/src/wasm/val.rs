//! Values.
use super::{WasmType, WasmTypeKind, WasmValueError};
use crate::tape::{self, Fault, Reader};
use crate::writer::WriterError;
use std::borrow::Cow;

macro_rules! scalars {
    ($($make:ident, $unwrap:ident, $ty:ty, $kind:literal;)*) => {
        $(
            #[doc = concat!("A value of the type `", $kind, "`.")]
            fn $make(val: $ty) -> Self {
                let _ = val;
                unimplemented!()
            }

            #[doc = concat!("What a value of the type `", $kind, "` is.")]
            /// # Panics
            /// Where the value is of another kind, or this isn't written.
            fn $unwrap(&self) -> $ty {
                unimplemented!()
            }
        )*
    };
}

/// A value that can be read and written; [`value::Value`](crate::value::Value) is one.
///
/// To be read, an implementation needs `make_*` of the kinds that its types have; to be written,
/// [`kind`](WasmValue::kind) and `unwrap_*`. Each is called only for its own kind; one that is not
/// written panics where it is called, and none of `f32` and `f64` is called, which have no values
/// here. An error of `make_*` becomes the cause of what [`from_str`](crate::from_str) returns.
#[allow(unused_variables)]
pub trait WasmValue: Clone + Sized {
    /// The types of these values.
    type Type: WasmType;

    /// The kind of the value's type.
    fn kind(&self) -> WasmTypeKind;

    /// The type of the value, where it knows it. One is made from the value's parts where it is
    /// `None`; the canonical text is the same at each type that the value has, but for the order of
    /// fields and flags, which is the type's.
    fn ty(&self) -> Option<Self::Type> {
        None
    }

    scalars! {
        make_bool, unwrap_bool, bool, "bool";
        make_s8, unwrap_s8, i8, "s8";
        make_s16, unwrap_s16, i16, "s16";
        make_s32, unwrap_s32, i32, "s32";
        make_s64, unwrap_s64, i64, "s64";
        make_u8, unwrap_u8, u8, "u8";
        make_u16, unwrap_u16, u16, "u16";
        make_u32, unwrap_u32, u32, "u32";
        make_u64, unwrap_u64, u64, "u64";
        make_f32, unwrap_f32, f32, "f32";
        make_f64, unwrap_f64, f64, "f64";
        make_char, unwrap_char, char, "char";
    }

    /// A value of the type `string`.
    fn make_string(val: Cow<str>) -> Self {
        unimplemented!()
    }

    /// A list of the type, which is of kind `List` or `FixedLengthList`.
    fn make_list(
        ty: &Self::Type,
        vals: impl IntoIterator<Item = Self>,
    ) -> Result<Self, WasmValueError> {
        unimplemented!()
    }

    /// A record of the type. A reader hands the fields over in the type's order; others may not.
    fn make_record<'a>(
        ty: &Self::Type,
        fields: impl IntoIterator<Item = (&'a str, Self)>,
    ) -> Result<Self, WasmValueError> {
        unimplemented!()
    }

    /// A tuple of the type.
    fn make_tuple(
        ty: &Self::Type,
        vals: impl IntoIterator<Item = Self>,
    ) -> Result<Self, WasmValueError> {
        unimplemented!()
    }

    /// A value of the variant type, of this case.
    fn make_variant(
        ty: &Self::Type,
        case: &str,
        val: Option<Self>,
    ) -> Result<Self, WasmValueError> {
        unimplemented!()
    }

    /// A value of the enum type, of this case.
    fn make_enum(ty: &Self::Type, case: &str) -> Result<Self, WasmValueError> {
        unimplemented!()
    }

    /// An option of the type.
    fn make_option(ty: &Self::Type, val: Option<Self>) -> Result<Self, WasmValueError> {
        unimplemented!()
    }

    /// A result of the type.
    fn make_result(
        ty: &Self::Type,
        val: Result<Option<Self>, Option<Self>>,
    ) -> Result<Self, WasmValueError> {
        unimplemented!()
    }

    /// Flags of the type. A reader hands distinct names over in the type's order; others may not.
    fn make_flags<'a>(
        ty: &Self::Type,
        names: impl IntoIterator<Item = &'a str>,
    ) -> Result<Self, WasmValueError> {
        unimplemented!()
    }

    /// A map of the type. A reader hands distinct keys over, in the order of their first places;
    /// others may not.
    fn make_map(
        ty: &Self::Type,
        entries: impl IntoIterator<Item = (Self, Self)>,
    ) -> Result<Self, WasmValueError> {
        unimplemented!()
    }

    /// What a value of the type `string` is.
    /// # Panics
    /// Where the value is of another kind, or this isn't written; so it is with each below.
    fn unwrap_string(&self) -> Cow<'_, str> {
        unimplemented!()
    }

    /// The elements of a list, of either kind.
    fn unwrap_list(&self) -> Box<dyn Iterator<Item = Cow<'_, Self>> + '_> {
        unimplemented!()
    }

    /// The names and values of a record's fields, in any order where the value tells its type.
    fn unwrap_record(&self) -> Box<dyn Iterator<Item = (Cow<'_, str>, Cow<'_, Self>)> + '_> {
        unimplemented!()
    }

    /// The values of a tuple.
    fn unwrap_tuple(&self) -> Box<dyn Iterator<Item = Cow<'_, Self>> + '_> {
        unimplemented!()
    }

    /// The case of a variant, and its payload where it has one.
    fn unwrap_variant(&self) -> (Cow<'_, str>, Option<Cow<'_, Self>>) {
        unimplemented!()
    }

    /// The case of an enum.
    fn unwrap_enum(&self) -> Cow<'_, str> {
        unimplemented!()
    }

    /// The payload of an option, or none.
    fn unwrap_option(&self) -> Option<Cow<'_, Self>> {
        unimplemented!()
    }

    /// Whether a result is `Ok` or `Err`, and its payload where it has one.
    fn unwrap_result(&self) -> Result<Option<Cow<'_, Self>>, Option<Cow<'_, Self>>> {
        unimplemented!()
    }

    /// The names of flags, in any order where the value tells its type.
    fn unwrap_flags(&self) -> Box<dyn Iterator<Item = Cow<'_, str>> + '_> {
        unimplemented!()
    }

    /// The keys and values of a map, in their order. Keys may repeat: what is written is merged, as
    /// what is read.
    fn unwrap_map(&self) -> Box<dyn Iterator<Item = (Cow<'_, Self>, Cow<'_, Self>)> + '_> {
        unimplemented!()
    }

    /// The value of the type whose bytes are next in the tape. By `make_*`, where it isn't written.
    #[doc(hidden)]
    fn take_from_tape(ty: &Self::Type, tape: &mut Reader<'_>) -> Result<Self, Fault> {
        tape::take(ty, tape)
    }

    /// Appends the bytes of the value at the type. By `unwrap_*`, where it isn't written.
    #[doc(hidden)]
    fn put_to_tape(&self, ty: &Self::Type, tape: &mut Vec<u8>) -> Result<(), WriterError> {
        tape::put(ty, self, tape)
    }
}
