//! Types and values of Rust as those of WAVE.
use super::{Content, Type, Value};
use crate::wasm::{WasmType, WasmTypeKind, WasmValue};

/// The type that the other one is.
pub(super) fn from_wasm_type(ty: &impl WasmType) -> Option<Type> {
    let payload = |ty: Option<_>| match ty {
        Some(ty) => from_wasm_type(&ty).map(Some),
        None => Some(None),
    };
    match ty.kind() {
        WasmTypeKind::List => Some(Type::list(from_wasm_type(&ty.list_element_type()?)?)),
        WasmTypeKind::FixedLengthList => Some(Type::fixed_length_list(
            from_wasm_type(&ty.list_element_type()?)?,
            ty.list_length()?,
        )),
        WasmTypeKind::Record => {
            let fields = ty.record_fields().map(|(name, ty)| Some((name, from_wasm_type(&ty)?)));
            Type::record(fields.collect::<Option<Vec<_>>>()?)
        }
        WasmTypeKind::Tuple => {
            let types = ty.tuple_element_types().map(|ty| from_wasm_type(&ty));
            Type::tuple(types.collect::<Option<Vec<_>>>()?)
        }
        WasmTypeKind::Variant => {
            let cases = ty.variant_cases().map(|(name, ty)| Some((name, payload(ty)?)));
            Type::variant(cases.collect::<Option<Vec<_>>>()?)
        }
        WasmTypeKind::Enum => Type::enum_ty(ty.enum_cases()),
        WasmTypeKind::Option => Some(Type::option(from_wasm_type(&ty.option_some_type()?)?)),
        WasmTypeKind::Result => {
            let (ok, err) = ty.result_types()?;
            Some(Type::result(payload(ok)?, payload(err)?))
        }
        WasmTypeKind::Flags => Type::flags(ty.flags_names()),
        WasmTypeKind::Map => {
            let (key, value) = ty.map_key_value_types()?;
            Type::map(from_wasm_type(&key)?, from_wasm_type(&value)?)
        }
        simple => Type::simple(simple),
    }
}

/// A type of Rust whose values are those of one type of WAVE.
pub trait ValueTyped {
    /// The type of WAVE.
    fn value_type() -> Type;
}

macro_rules! of_scalars {
    ($($rust:ty, $variant:ident, $ty:ident;)*) => {
        $(
            impl ValueTyped for $rust {
                fn value_type() -> Type {
                    Type::$ty
                }
            }

            impl From<$rust> for Value {
                fn from(val: $rust) -> Self {
                    Value(Content::$variant(val))
                }
            }
        )*
    };
}

of_scalars! {
    bool, Bool, BOOL;
    i8, S8, S8;
    i16, S16, S16;
    i32, S32, S32;
    i64, S64, S64;
    u8, U8, U8;
    u16, U16, U16;
    u32, U32, U32;
    u64, U64, U64;
    char, Char, CHAR;
}

impl ValueTyped for String {
    fn value_type() -> Type {
        Type::STRING
    }
}

impl From<String> for Value {
    fn from(val: String) -> Self {
        Value(Content::String(val.into_boxed_str()))
    }
}

impl ValueTyped for &str {
    fn value_type() -> Type {
        Type::STRING
    }
}

impl From<&str> for Value {
    fn from(val: &str) -> Self {
        Value(Content::String(val.into()))
    }
}

/// What was made of parts of the stated types.
fn made<E: std::fmt::Display>(value: Result<Value, E>) -> Value {
    value.unwrap_or_else(|error| unreachable!("{error}"))
}

impl<const N: usize, T: ValueTyped> ValueTyped for [T; N] {
    fn value_type() -> Type {
        Type::list(T::value_type())
    }
}

impl<const N: usize, T: ValueTyped + Into<Value>> From<[T; N]> for Value {
    fn from(vals: [T; N]) -> Self {
        made(Value::make_list(&<[T; N]>::value_type(), vals.into_iter().map(Into::into)))
    }
}

impl<T: ValueTyped> ValueTyped for Vec<T> {
    fn value_type() -> Type {
        Type::list(T::value_type())
    }
}

impl<T: ValueTyped + Into<Value>> From<Vec<T>> for Value {
    fn from(vals: Vec<T>) -> Self {
        made(Value::make_list(&Vec::<T>::value_type(), vals.into_iter().map(Into::into)))
    }
}

impl<T: ValueTyped> ValueTyped for Option<T> {
    fn value_type() -> Type {
        Type::option(T::value_type())
    }
}

impl<T: ValueTyped + Into<Value>> From<Option<T>> for Value {
    fn from(val: Option<T>) -> Self {
        made(Value::make_option(&Option::<T>::value_type(), val.map(Into::into)))
    }
}

impl<T: ValueTyped, U: ValueTyped> ValueTyped for Result<T, U> {
    fn value_type() -> Type {
        Type::result(Some(T::value_type()), Some(U::value_type()))
    }
}

impl<T: ValueTyped + Into<Value>, U: ValueTyped + Into<Value>> From<Result<T, U>> for Value {
    fn from(val: Result<T, U>) -> Self {
        let val = val.map(|ok| Some(ok.into())).map_err(|err| Some(err.into()));
        made(Value::make_result(&Result::<T, U>::value_type(), val))
    }
}

macro_rules! of_tuples {
    ($($part:ident)*) => {
        of_tuples!(@each [] $($part)*);
    };
    (@each [$($part:ident)*] $next:ident $($more:ident)*) => {
        of_tuples!(@one $($part)* $next);
        of_tuples!(@each [$($part)* $next] $($more)*);
    };
    (@each [$($part:ident)*]) => {};
    (@one $($part:ident)*) => {
        impl<$($part: ValueTyped),*> ValueTyped for ($($part,)*) {
            fn value_type() -> Type {
                let types = [$($part::value_type()),*];
                Type::tuple(types).unwrap_or_else(|| unreachable!("a tuple without parts"))
            }
        }

        impl<$($part: ValueTyped + Into<Value>),*> From<($($part,)*)> for Value {
            fn from(val: ($($part,)*)) -> Self {
                #[allow(non_snake_case)]
                let ($($part,)*) = val;
                made(Value::make_tuple(&<($($part,)*)>::value_type(), [$($part.into()),*]))
            }
        }
    };
}

of_tuples!(T1 T2 T3 T4 T5 T6 T7 T8 T9 T10 T11 T12 T13 T14 T15 T16);

#[cfg(test)]
mod tests {
    use super::*;

    fn type_of(val: impl Into<Value>) -> String {
        val.into().ty().map(|ty| ty.to_string()).unwrap_or_default()
    }

    #[test]
    fn rust_values_have_their_types() {
        assert_eq!(type_of(7u8), "u8");
        assert_eq!(type_of('x'), "char");
        assert_eq!(type_of("x"), "string");
        assert_eq!(type_of(vec![Some(1i32), None]), "list<option<s32>>");
        assert_eq!(type_of([[0u8; 2]; 3]), "list<list<u8>>");
        assert_eq!(type_of((1u64, "a", [true])), "tuple<u64, string, list<bool>>");
        assert_eq!(type_of((1u16,)), "tuple<u16>");
        assert_eq!(type_of(Ok::<u8, String>(1)), "result<u8, string>");
        assert_eq!(type_of(Err::<u8, String>("a".into())), "result<u8, string>");
    }

    #[test]
    fn types_are_taken_over() {
        let all = Type::record([
            ("a", Type::fixed_length_list(Type::F32, 3)),
            (
                "b",
                Type::variant([("c", None), ("d", Some(Type::tuple([Type::S8]).unwrap()))])
                    .unwrap(),
            ),
            (
                "e",
                Type::result(
                    None,
                    Some(Type::map(Type::BOOL, Type::enum_ty(["f"]).unwrap()).unwrap()),
                ),
            ),
            ("g", Type::option(Type::flags(["h"]).unwrap())),
        ])
        .unwrap();
        assert_eq!(Type::from_wasm_type(&all), Some(all));
    }
}
