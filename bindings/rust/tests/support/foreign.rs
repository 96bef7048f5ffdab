//! Values that don't know their type, and keep what they are handed as it is.
use std::borrow::Cow;
use wave::value::Type;
use wave::wasm::{WasmType, WasmTypeKind, WasmValue, WasmValueError};

#[derive(Clone, Debug, PartialEq)]
pub enum Foreign {
    Bool(bool),
    S8(i8),
    S16(i16),
    S32(i32),
    S64(i64),
    U8(u8),
    U16(u16),
    U32(u32),
    U64(u64),
    Char(char),
    String(String),
    List(Vec<Foreign>),
    Fixed(Vec<Foreign>),
    Record(Vec<(String, Foreign)>),
    Tuple(Vec<Foreign>),
    Variant(String, Option<Box<Foreign>>),
    Enum(String),
    Option(Option<Box<Foreign>>),
    Result(Result<Option<Box<Foreign>>, Option<Box<Foreign>>>),
    Flags(Vec<String>),
    Map(Vec<(Foreign, Foreign)>),
    Unsupported,
}

fn borrow<'a>(vals: &'a [Foreign]) -> Box<dyn Iterator<Item = Cow<'a, Foreign>> + 'a> {
    Box::new(vals.iter().map(Cow::Borrowed))
}

macro_rules! scalars {
    ($($make:ident, $unwrap:ident, $ty:ty, $variant:ident;)*) => {
        $(
            fn $make(val: $ty) -> Self {
                Foreign::$variant(val)
            }

            fn $unwrap(&self) -> $ty {
                match self {
                    Foreign::$variant(val) => *val,
                    _ => panic!("{self:?}"),
                }
            }
        )*
    };
}

impl WasmValue for Foreign {
    type Type = Type;

    fn kind(&self) -> WasmTypeKind {
        match self {
            Foreign::Bool(_) => WasmTypeKind::Bool,
            Foreign::S8(_) => WasmTypeKind::S8,
            Foreign::S16(_) => WasmTypeKind::S16,
            Foreign::S32(_) => WasmTypeKind::S32,
            Foreign::S64(_) => WasmTypeKind::S64,
            Foreign::U8(_) => WasmTypeKind::U8,
            Foreign::U16(_) => WasmTypeKind::U16,
            Foreign::U32(_) => WasmTypeKind::U32,
            Foreign::U64(_) => WasmTypeKind::U64,
            Foreign::Char(_) => WasmTypeKind::Char,
            Foreign::String(_) => WasmTypeKind::String,
            Foreign::List(_) => WasmTypeKind::List,
            Foreign::Fixed(_) => WasmTypeKind::FixedLengthList,
            Foreign::Record(_) => WasmTypeKind::Record,
            Foreign::Tuple(_) => WasmTypeKind::Tuple,
            Foreign::Variant(..) => WasmTypeKind::Variant,
            Foreign::Enum(_) => WasmTypeKind::Enum,
            Foreign::Option(_) => WasmTypeKind::Option,
            Foreign::Result(_) => WasmTypeKind::Result,
            Foreign::Flags(_) => WasmTypeKind::Flags,
            Foreign::Map(_) => WasmTypeKind::Map,
            Foreign::Unsupported => WasmTypeKind::Unsupported,
        }
    }

    scalars! {
        make_bool, unwrap_bool, bool, Bool;
        make_s8, unwrap_s8, i8, S8;
        make_s16, unwrap_s16, i16, S16;
        make_s32, unwrap_s32, i32, S32;
        make_s64, unwrap_s64, i64, S64;
        make_u8, unwrap_u8, u8, U8;
        make_u16, unwrap_u16, u16, U16;
        make_u32, unwrap_u32, u32, U32;
        make_u64, unwrap_u64, u64, U64;
        make_char, unwrap_char, char, Char;
    }

    fn make_string(val: Cow<str>) -> Self {
        Foreign::String(val.into_owned())
    }

    fn make_list(ty: &Type, vals: impl IntoIterator<Item = Self>) -> Result<Self, WasmValueError> {
        let vals = vals.into_iter().collect();
        Ok(if ty.kind() == WasmTypeKind::List { Foreign::List(vals) } else { Foreign::Fixed(vals) })
    }

    fn make_record<'a>(
        _: &Type,
        fields: impl IntoIterator<Item = (&'a str, Self)>,
    ) -> Result<Self, WasmValueError> {
        Ok(Foreign::Record(fields.into_iter().map(|(name, val)| (name.to_owned(), val)).collect()))
    }

    fn make_tuple(_: &Type, vals: impl IntoIterator<Item = Self>) -> Result<Self, WasmValueError> {
        Ok(Foreign::Tuple(vals.into_iter().collect()))
    }

    fn make_variant(_: &Type, case: &str, val: Option<Self>) -> Result<Self, WasmValueError> {
        Ok(Foreign::Variant(case.to_owned(), val.map(Box::new)))
    }

    /// It has no case `off`.
    fn make_enum(_: &Type, case: &str) -> Result<Self, WasmValueError> {
        if case == "off" {
            return Err(WasmValueError::Other("never off".into()));
        }
        Ok(Foreign::Enum(case.to_owned()))
    }

    fn make_option(_: &Type, val: Option<Self>) -> Result<Self, WasmValueError> {
        Ok(Foreign::Option(val.map(Box::new)))
    }

    fn make_result(
        _: &Type,
        val: Result<Option<Self>, Option<Self>>,
    ) -> Result<Self, WasmValueError> {
        Ok(Foreign::Result(val.map(|ok| ok.map(Box::new)).map_err(|err| err.map(Box::new))))
    }

    fn make_flags<'a>(
        _: &Type,
        names: impl IntoIterator<Item = &'a str>,
    ) -> Result<Self, WasmValueError> {
        Ok(Foreign::Flags(names.into_iter().map(str::to_owned).collect()))
    }

    fn make_map(
        _: &Type,
        entries: impl IntoIterator<Item = (Self, Self)>,
    ) -> Result<Self, WasmValueError> {
        Ok(Foreign::Map(entries.into_iter().collect()))
    }

    fn unwrap_string(&self) -> Cow<'_, str> {
        match self {
            Foreign::String(val) => Cow::Borrowed(val),
            _ => panic!("{self:?}"),
        }
    }

    fn unwrap_list(&self) -> Box<dyn Iterator<Item = Cow<'_, Self>> + '_> {
        match self {
            Foreign::List(vals) | Foreign::Fixed(vals) => borrow(vals),
            _ => panic!("{self:?}"),
        }
    }

    fn unwrap_record(&self) -> Box<dyn Iterator<Item = (Cow<'_, str>, Cow<'_, Self>)> + '_> {
        match self {
            Foreign::Record(fields) => Box::new(
                fields.iter().map(|(name, val)| (Cow::Borrowed(name.as_str()), Cow::Borrowed(val))),
            ),
            _ => panic!("{self:?}"),
        }
    }

    fn unwrap_tuple(&self) -> Box<dyn Iterator<Item = Cow<'_, Self>> + '_> {
        match self {
            Foreign::Tuple(vals) => borrow(vals),
            _ => panic!("{self:?}"),
        }
    }

    fn unwrap_variant(&self) -> (Cow<'_, str>, Option<Cow<'_, Self>>) {
        match self {
            Foreign::Variant(case, val) => (Cow::Borrowed(case), val.as_deref().map(Cow::Borrowed)),
            _ => panic!("{self:?}"),
        }
    }

    fn unwrap_enum(&self) -> Cow<'_, str> {
        match self {
            Foreign::Enum(case) => Cow::Borrowed(case),
            _ => panic!("{self:?}"),
        }
    }

    fn unwrap_option(&self) -> Option<Cow<'_, Self>> {
        match self {
            Foreign::Option(val) => val.as_deref().map(Cow::Borrowed),
            _ => panic!("{self:?}"),
        }
    }

    fn unwrap_result(&self) -> Result<Option<Cow<'_, Self>>, Option<Cow<'_, Self>>> {
        match self {
            Foreign::Result(Ok(val)) => Ok(val.as_deref().map(Cow::Borrowed)),
            Foreign::Result(Err(val)) => Err(val.as_deref().map(Cow::Borrowed)),
            _ => panic!("{self:?}"),
        }
    }

    fn unwrap_flags(&self) -> Box<dyn Iterator<Item = Cow<'_, str>> + '_> {
        match self {
            Foreign::Flags(names) => {
                Box::new(names.iter().map(|name| Cow::Borrowed(name.as_str())))
            }
            _ => panic!("{self:?}"),
        }
    }

    fn unwrap_map(&self) -> Box<dyn Iterator<Item = (Cow<'_, Self>, Cow<'_, Self>)> + '_> {
        match self {
            Foreign::Map(entries) => {
                Box::new(entries.iter().map(|(key, val)| (Cow::Borrowed(key), Cow::Borrowed(val))))
            }
            _ => panic!("{self:?}"),
        }
    }
}
