//! The text of a type, which the crate has no reader of: the types of tests/beside-rust, all but f32, f64 and lists of a fixed length.
use wasm_wave::value::Type;

/// What is left of the text.
struct Rest<'a>(&'a str);

impl<'a> Rest<'a> {
    fn skip(&mut self) {
        self.0 = self.0.trim_start();
        while self.0.starts_with("//") {
            self.0 = self.0.split_once('\n').map_or("", |(_, rest)| rest).trim_start();
        }
    }

    fn takes(&mut self, mark: &str) -> bool {
        self.skip();
        let rest = self.0.strip_prefix(mark);
        self.0 = rest.unwrap_or(self.0);
        rest.is_some()
    }

    fn name(&mut self) -> &'a str {
        self.takes("%");
        self.skip();
        let end = self.0.find(|c: char| !(c.is_ascii_alphanumeric() || c == '-'));
        let (name, rest) = self.0.split_at(end.unwrap_or(self.0.len()));
        self.0 = rest;
        name
    }

    /// The items up to the mark, with commas between them.
    fn items<T>(&mut self, close: &str, mut item: impl FnMut(&mut Self) -> T) -> Vec<T> {
        let mut all = Vec::new();
        while !self.takes(close) {
            all.push(item(self));
            self.takes(",");
        }
        all
    }

    fn field(&mut self) -> (&'a str, Type) {
        let name = self.name();
        assert!(self.takes(":"), "a colon before {}", self.0);
        (name, self.value_type())
    }

    fn case(&mut self) -> (&'a str, Option<Type>) {
        let name = self.name();
        let payload = self.takes("(").then(|| self.value_type());
        assert!(payload.is_none() || self.takes(")"), "a parenthesis before {}", self.0);
        (name, payload)
    }

    /// What stands between angle brackets, with None for a `_`.
    fn inner(&mut self) -> Vec<Option<Type>> {
        if !self.takes("<") {
            return Vec::new();
        }
        self.items(">", |it| if it.takes("_") { None } else { Some(it.value_type()) })
    }

    fn made_of(kind: &str, parts: Vec<Option<Type>>) -> Option<Type> {
        let mut each = parts.into_iter();
        if kind == "result" {
            return Some(Type::result(each.next().flatten(), each.next().flatten()));
        }
        if kind == "tuple" {
            return Type::tuple(each.collect::<Option<Vec<_>>>()?);
        }
        let first = each.next()??;
        match kind {
            "list" => Some(Type::list(first)),
            "option" => Some(Type::option(first)),
            "map" => Type::map(first, each.next()??),
            _ => None,
        }
    }

    fn value_type(&mut self) -> Type {
        let kind = self.name();
        match kind {
            "bool" => return Type::BOOL,
            "s8" => return Type::S8,
            "s16" => return Type::S16,
            "s32" => return Type::S32,
            "s64" => return Type::S64,
            "u8" => return Type::U8,
            "u16" => return Type::U16,
            "u32" => return Type::U32,
            "u64" => return Type::U64,
            "char" => return Type::CHAR,
            "string" => return Type::STRING,
            _ => (),
        }
        let made = if self.takes("{") {
            match kind {
                "record" => Type::record(self.items("}", Self::field)),
                "variant" => Type::variant(self.items("}", Self::case)),
                "enum" => Type::enum_ty(self.items("}", Self::name)),
                "flags" => Type::flags(self.items("}", Self::name)),
                _ => None,
            }
        } else {
            let parts = self.inner();
            Self::made_of(kind, parts)
        };
        made.unwrap_or_else(|| panic!("no type: {kind} before {}", self.0))
    }
}

pub fn value_type(text: &str) -> Type {
    let mut rest = Rest(text);
    let ty = rest.value_type();
    rest.skip();
    assert_eq!(rest.0, "", "nothing behind a type");
    ty
}

/// The types of the parameters of `func(..)`.
pub fn params(text: &str) -> Vec<Type> {
    let mut rest = Rest(text);
    assert_eq!(rest.name(), "func");
    assert!(rest.takes("("));
    rest.items(")", Rest::field).into_iter().map(|(_, ty)| ty).collect()
}
