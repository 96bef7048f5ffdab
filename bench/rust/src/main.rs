//! The same work as `wave_bench`, on the same input, by the Rust crate.
use std::io::Read;
use std::time::Instant;
use wasm_wave::untyped::{UntypedFuncCall, UntypedValue};
use wasm_wave::value::{Type, Value};

/// The text of a type, read from the front.
struct Types<'a>(&'a str);

impl<'a> Types<'a> {
    fn skip(&mut self) {
        self.0 = self.0.trim_start();
    }

    fn takes(&mut self, mark: &str) -> bool {
        self.skip();
        match self.0.strip_prefix(mark) {
            Some(rest) => {
                self.0 = rest;
                true
            }
            None => false,
        }
    }

    fn name(&mut self) -> &'a str {
        self.skip();
        let end = self.0.find(|c: char| !(c.is_ascii_alphanumeric() || c == '-' || c == '_'));
        let (name, rest) = self.0.split_at(end.unwrap_or(self.0.len()));
        self.0 = rest;
        name
    }

    /// The items up to the mark, with commas between them.
    fn items<T>(&mut self, close: &str, mut item: impl FnMut(&mut Self) -> T) -> Vec<T> {
        let mut all = Vec::new();
        while !self.takes(close) {
            all.push(item(self));
            self.takes(",");
        }
        all
    }

    fn inner(&mut self) -> Vec<Option<Type>> {
        if !self.takes("<") {
            return Vec::new();
        }
        self.items(">", |it| if it.takes("_") { None } else { Some(it.ty()) })
    }

    fn part(&mut self) -> Type {
        self.inner().remove(0).unwrap()
    }

    fn ty(&mut self) -> Type {
        match self.name() {
            "bool" => Type::BOOL,
            "s8" => Type::S8,
            "s16" => Type::S16,
            "s32" => Type::S32,
            "s64" => Type::S64,
            "u8" => Type::U8,
            "u16" => Type::U16,
            "u32" => Type::U32,
            "u64" => Type::U64,
            "char" => Type::CHAR,
            "string" => Type::STRING,
            "list" => Type::list(self.part()),
            "tuple" => Type::tuple(self.inner().into_iter().flatten().collect::<Vec<_>>()).unwrap(),
            "option" => Type::option(self.part()),
            "result" => {
                let mut parts = self.inner().into_iter();
                Type::result(parts.next().flatten(), parts.next().flatten())
            }
            "map" => {
                let mut parts = self.inner().into_iter().flatten();
                Type::map(parts.next().unwrap(), parts.next().unwrap()).unwrap()
            }
            kind => self.named(kind),
        }
    }

    fn named(&mut self, kind: &str) -> Type {
        assert!(self.takes("{"), "no type of the benchmark: {kind}");
        match kind {
            "record" => Type::record(self.items("}", |it| {
                let name = it.name();
                assert!(it.takes(":"));
                (name, it.ty())
            })),
            "variant" => Type::variant(self.items("}", |it| {
                let name = it.name();
                let payload = it.takes("(").then(|| it.ty());
                assert!(payload.is_none() || it.takes(")"));
                (name, payload)
            })),
            "enum" => Type::enum_ty(self.items("}", |it| it.name())),
            "flags" => Type::flags(self.items("}", |it| it.name())),
            _ => None,
        }
        .expect(kind)
    }
}

fn call_lines(types: &[Type], text: &str) {
    for line in text.split('\n').filter(|line| !line.is_empty()) {
        let call = UntypedFuncCall::parse(line).unwrap();
        call.to_wasm_params::<Value>(types).unwrap();
    }
}

fn repeated(loops: usize, mut work: impl FnMut()) -> u128 {
    let start = Instant::now();
    for _ in 0..loops {
        work();
    }
    start.elapsed().as_nanos()
}

fn spent(call: &str, loops: usize, types: &[Type], text: &str) -> u128 {
    if call == "call" {
        return repeated(loops, || call_lines(types, text));
    }
    let ty = &types[0];
    let val: Value = wasm_wave::from_str(ty, text).unwrap();
    match call {
        "read" => repeated(loops, || drop(wasm_wave::from_str::<Value>(ty, text).unwrap())),
        "write" => repeated(loops, || drop(wasm_wave::to_string(&val).unwrap())),
        _ => repeated(loops, || drop(UntypedValue::parse(text).unwrap())),
    }
}

fn main() {
    let mut words = std::env::args().skip(1);
    let call = words.next().expect("a call");
    let loops = words.next().and_then(|word| word.parse().ok()).unwrap_or(1);
    let mut input = String::new();
    std::io::stdin().read_to_string(&mut input).unwrap();
    for case in input.split('#').skip(1) {
        let (head, text) = case.split_once('\n').unwrap();
        let (name, types) = head.split_once(' ').unwrap();
        let types: Vec<Type> = types.split(';').map(|it| Types(it).ty()).collect();
        let spent = spent(&call, loops, &types, text);
        println!("{name} in {} loops {loops} {call} {spent}", text.len());
    }
}
