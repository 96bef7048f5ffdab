//! Displays.
use super::{WasmFunc, WasmType, WasmTypeKind, WasmValue};
use std::borrow::Cow;
use std::fmt::{Display, Error, Formatter, Result, Write};

/// Displays a type, as it is spelled.
pub struct DisplayType<'a, T: WasmType>(pub &'a T);

impl<T: WasmType> Display for DisplayType<'_, T> {
    fn fmt(&self, f: &mut Formatter<'_>) -> Result {
        TypeWriter { to: f, is_name: |_| true }.write(self.0)
    }
}

/// The text that spells the type; `None` where a name has what is in no label, so that it can't be
/// taken for more than a name. What else no text spells is left to the library to refuse.
pub(crate) fn spelling(ty: &impl WasmType) -> Option<String> {
    let mut text = String::new();
    let mut writer = TypeWriter {
        to: &mut text,
        is_name: |name| {
            let is_of_label = |byte: u8| byte.is_ascii_alphanumeric() || byte == b'-';
            name.bytes().all(is_of_label)
        },
    };
    writer.write(ty).ok()?;
    Some(text)
}

/// Writes types, as far as their names are such.
struct TypeWriter<'a> {
    to: &'a mut dyn Write,
    is_name: fn(&str) -> bool,
}

impl TypeWriter<'_> {
    fn write<T: WasmType>(&mut self, ty: &T) -> Result {
        match ty.kind() {
            WasmTypeKind::List => self.write_row("list<", ty.list_element_type(), Self::write, ">"),
            WasmTypeKind::FixedLengthList => {
                let length = ty.list_length().ok_or(Error)?;
                self.write_row("list<", ty.list_element_type(), Self::write, ", ")?;
                write!(self.to, "{length}>")
            }
            WasmTypeKind::Record => {
                let fields = ty.record_fields().map(|(name, ty)| (name, Some(ty)));
                self.write_row("record { ", fields, |it, part| it.write_named(part, ": ", ""), " }")
            }
            WasmTypeKind::Tuple => {
                self.write_row("tuple<", ty.tuple_element_types(), Self::write, ">")
            }
            WasmTypeKind::Variant => {
                let cases = ty.variant_cases();
                self.write_row("variant { ", cases, |it, part| it.write_named(part, "(", ")"), " }")
            }
            WasmTypeKind::Enum => {
                self.write_row("enum { ", ty.enum_cases(), |it, name| it.write_name(name), " }")
            }
            WasmTypeKind::Flags => {
                self.write_row("flags { ", ty.flags_names(), |it, name| it.write_name(name), " }")
            }
            WasmTypeKind::Option => {
                self.write_row("option<", ty.option_some_type(), Self::write, ">")
            }
            WasmTypeKind::Result => match ty.result_types().ok_or(Error)? {
                (None, None) => self.to.write_str("result"),
                (Some(ok), None) => self.write_row("result<", [ok], Self::write, ">"),
                (None, Some(err)) => self.write_row("result<_, ", [err], Self::write, ">"),
                (Some(ok), Some(err)) => self.write_row("result<", [ok, err], Self::write, ">"),
            },
            WasmTypeKind::Map => {
                let (key, val) = ty.map_key_value_types().ok_or(Error)?;
                self.write_row("map<", [key, val], Self::write, ">")
            }
            simple => write!(self.to, "{simple}"),
        }
    }

    fn write_row<T>(
        &mut self,
        open: &str,
        parts: impl IntoIterator<Item = T>,
        write: impl Fn(&mut Self, &T) -> Result,
        close: &str,
    ) -> Result {
        self.to.write_str(open)?;
        for (place, part) in parts.into_iter().enumerate() {
            if place > 0 {
                self.to.write_str(", ")?;
            }
            write(self, &part)?;
        }
        self.to.write_str(close)
    }

    fn write_name(&mut self, name: &str) -> Result {
        if !(self.is_name)(name) {
            return Err(Error);
        }
        self.to.write_str(name)
    }

    /// Writes the name and, between the marks, the type, where there is one.
    fn write_named<T: WasmType>(
        &mut self,
        (name, ty): &(Cow<'_, str>, Option<T>),
        before: &str,
        behind: &str,
    ) -> Result {
        self.write_name(name)?;
        let Some(ty) = ty else { return Ok(()) };
        self.to.write_str(before)?;
        self.write(ty)?;
        self.to.write_str(behind)
    }
}

/// Displays a value as its canonical text.
///
/// Where it has none this is an [`Error`]; [`to_string`](crate::to_string) says why.
pub struct DisplayValue<'a, V: WasmValue>(pub &'a V);

impl<V: WasmValue> Display for DisplayValue<'_, V> {
    fn fmt(&self, f: &mut Formatter<'_>) -> Result {
        f.write_str(&crate::to_string(self.0).map_err(|_| Error)?)
    }
}

/// Displays a function's type.
pub struct DisplayFunc<F: WasmFunc>(pub F);

impl<F: WasmFunc> Display for DisplayFunc<F> {
    fn fmt(&self, f: &mut Formatter<'_>) -> Result {
        f.write_str("func")?;
        write_named(f, self.0.params(), self.0.param_names())?;
        let mut results = self.0.results();
        match (results.next(), results.next()) {
            (None, _) => Ok(()),
            (Some(ty), None) if self.0.result_names().next().is_none() => {
                write!(f, " -> {}", DisplayType(&ty))
            }
            _ => {
                f.write_str(" -> ")?;
                write_named(f, self.0.results(), self.0.result_names())
            }
        }
    }
}

/// Writes the types in parentheses, each behind its name where there is one.
fn write_named<T: WasmType>(
    f: &mut Formatter<'_>,
    types: impl Iterator<Item = T>,
    mut names: impl Iterator<Item = impl Display>,
) -> Result {
    f.write_char('(')?;
    for (place, ty) in types.enumerate() {
        if place > 0 {
            f.write_str(", ")?;
        }
        if let Some(name) = names.next() {
            write!(f, "{name}: ")?;
        }
        DisplayType(&ty).fmt(f)?;
    }
    f.write_char(')')
}

/// Displays the arguments of a call: their canonical texts in parentheses.
pub struct DisplayFuncArgs<'a, V: WasmValue>(pub &'a [V]);

impl<V: WasmValue> Display for DisplayFuncArgs<'_, V> {
    fn fmt(&self, f: &mut Formatter<'_>) -> Result {
        f.write_char('(')?;
        for (place, val) in self.0.iter().enumerate() {
            if place > 0 {
                f.write_str(", ")?;
            }
            DisplayValue(val).fmt(f)?;
        }
        f.write_char(')')
    }
}

/// Displays the results of a call: as arguments are displayed, but one alone is bare.
pub struct DisplayFuncResults<'a, V: WasmValue>(pub &'a [V]);

impl<V: WasmValue> Display for DisplayFuncResults<'_, V> {
    fn fmt(&self, f: &mut Formatter<'_>) -> Result {
        match self.0 {
            [one] => DisplayValue(one).fmt(f),
            several => DisplayFuncArgs(several).fmt(f),
        }
    }
}

#[cfg(test)]
mod tests {
    use crate::value::{FuncType, Type};
    use crate::wasm::WasmType;

    #[test]
    fn types_are_displayed_as_they_are_spelled() {
        let record = Type::record([("a", Type::U8), ("b", Type::option(Type::STRING))]).unwrap();
        for (ty, text) in [
            (Type::BOOL, "bool"),
            (Type::F64, "f64"),
            (Type::list(record.clone()), "list<record { a: u8, b: option<string> }>"),
            (Type::fixed_length_list(Type::CHAR, 4), "list<char, 4>"),
            (Type::tuple([Type::S8, Type::U64]).unwrap(), "tuple<s8, u64>"),
            (
                Type::variant([("off", None), ("on", Some(Type::U8))]).unwrap(),
                "variant { off, on(u8) }",
            ),
            (Type::enum_ty(["north", "true"]).unwrap(), "enum { north, true }"),
            (Type::flags(["read", "write"]).unwrap(), "flags { read, write }"),
            (Type::result(None, None), "result"),
            (Type::result(Some(Type::S16), None), "result<s16>"),
            (Type::result(None, Some(Type::S16)), "result<_, s16>"),
            (Type::result(Some(Type::S32), Some(Type::S64)), "result<s32, s64>"),
            (Type::map(Type::STRING, Type::list(Type::U8)).unwrap(), "map<string, list<u8>>"),
        ] {
            assert_eq!(ty.to_string(), text);
            assert_eq!(ty.spelled().as_deref(), Some(text));
        }
    }

    #[test]
    fn what_no_text_spells_is_displayed() {
        let ty = Type::enum_ty(["a }, b"]).unwrap();
        assert_eq!(ty.to_string(), "enum { a }, b }");
        assert_eq!(ty.spelled(), None);
        assert_eq!(Type::list(ty).spelled(), None);
    }

    #[test]
    fn functions_are_displayed() {
        let named = |names: &[&str]| {
            names.iter().map(|name| (name.to_string(), Type::U8)).collect::<Vec<_>>()
        };
        for (params, results, text) in [
            (&[][..], &[][..], "func()"),
            (&["a", "b"][..], &[""][..], "func(a: u8, b: u8) -> u8"),
            (&["a"][..], &["r"][..], "func(a: u8) -> (r: u8)"),
            (&[][..], &["r", "s"][..], "func() -> (r: u8, s: u8)"),
        ] {
            let func = FuncType::new(named(params), named(results)).unwrap();
            assert_eq!(func.to_string(), text);
        }
    }
}
