//! Reading and writing by the library.
mod support;

use std::thread;
use support::foreign::Foreign;
use support::random::Random;
use support::types;
use wave::parser::{Parser, ParserError, ParserErrorKind};
use wave::untyped::{UntypedFuncCall, UntypedValue};
use wave::value::{FuncType, Type, TypeError, TypeErrorKind, Value};
use wave::wasm::{
    DisplayFuncArgs, DisplayFuncResults, DisplayValue, WasmFunc, WasmType, WasmTypeKind, WasmValue,
    WasmValueError,
};
use wave::writer::{Writer, WriterError};
use wave::{explain, explain_call, from_str, to_string};

fn ty(text: &str) -> Type {
    text.parse().unwrap_or_else(|error| panic!("{text}: {error}"))
}

fn read(text: &str, ty: &Type) -> Value {
    from_str(ty, text).unwrap_or_else(|error| panic!("{text:?} at {ty}: {error}"))
}

#[test]
fn version() {
    assert_eq!(wave::version(), (0, 1, 0));
}

#[test]
fn each_kind_there_and_back() {
    for (spelled, text, canonical) in [
        ("bool", "true", "true"),
        ("s8", "-128", "-128"),
        ("s16", "-0", "0"),
        ("s32", "-7", "-7"),
        ("s64", "-9223372036854775808", "-9223372036854775808"),
        ("u8", "255 // all", "255"),
        ("u16", "8080", "8080"),
        ("u32", "7", "7"),
        ("u64", "18446744073709551615", "18446744073709551615"),
        ("char", r"'\u{2603}'", "'☃'"),
        ("string", r#""a\tb\u{e9}""#, r#""a\tbé""#),
        ("string", "\"\"\"\n  a\n  \"\"\"", r#""a""#),
        ("list<u8>", "[ 1,2, ]", "[1, 2]"),
        ("list<string, 2>", r#"["a","b"]"#, r#"["a", "b"]"#),
        ("list<u8, 0>", "[]", "[]"),
        ("tuple<u8, list<u8>>", "(1, [])", "(1, [])"),
        ("record { a: u8, b: option<u8> }", "{b: 2, a: 1}", "{a: 1, b: some(2)}"),
        ("record { a: u8, b: option<u8> }", "{a: 1}", "{a: 1}"),
        ("record { a: option<u8> }", "{:}", "{:}"),
        ("variant { off, on(u8) }", "on(1)", "on(1)"),
        ("variant { off, on(u8) }", "%off", "off"),
        ("enum { ok, late }", "%ok", "%ok"),
        ("option<u8>", "1", "some(1)"),
        ("option<option<u8>>", "some(none)", "some(none)"),
        ("result<u8, string>", "1", "ok(1)"),
        ("result", "err", "err"),
        ("flags { r, w, x }", "{x, r}", "{r, x}"),
        ("flags { r }", "{}", "{}"),
        ("map<string, u8>", r#"{"a": 1, "b": 2, "a": 3}"#, r#"{"a": 3, "b": 2}"#),
        ("map<bool, list<u8>>", "{true: [1]}", "{true: [1]}"),
    ] {
        let ty = ty(spelled);
        let value = read(text, &ty);
        assert_eq!(value.ty().as_ref(), Some(&ty));
        assert_eq!(to_string(&value).as_deref(), Ok(canonical), "{spelled}");
        assert_eq!(read(canonical, &ty), value, "{spelled}");
        let foreign: Foreign = from_str(&ty, text).unwrap();
        assert_eq!(to_string(&foreign).as_deref(), Ok(canonical), "{spelled}");
        assert_eq!(explain(&ty, text), "");
    }
}

#[test]
fn random_values_there_and_back() {
    let mut random = Random::new(4);
    let mut of_kinds = types();
    of_kinds.extend((0..1500).map(|_| random.ty(4)));
    for ty in of_kinds {
        assert_eq!(self::ty(&ty.to_string()), ty);
        for _ in 0..3 {
            let value = random.value(&ty);
            let text = to_string(&value).unwrap();
            assert_eq!(read(&text, &ty), value, "{ty}: {text}");
            let foreign: Foreign = from_str(&ty, &text).unwrap();
            let by_shape = to_string(&foreign).unwrap();
            // where names of flags were seen in another order, they are in that order
            assert_eq!(by_shape.len(), text.len());
            assert_eq!(read(&by_shape, &ty), value);
        }
    }
}

#[test]
fn long_texts() {
    let numbers = Type::list(Type::U64);
    let zeros = format!("[{}]", "0,".repeat(100_000));
    let value = read(&zeros, &numbers);
    assert_eq!(value.unwrap_list().count(), 100_000);
    let text = to_string(&value).unwrap();
    assert_eq!(text.len(), 300_000);
    assert_eq!(read(&text, &numbers), value);
    let word = "ä\u{200b}".repeat(50_000);
    let text = to_string(&Value::from(word.as_str())).unwrap();
    assert_eq!(read(&text, &Type::STRING).unwrap_string(), word);
}

#[test]
fn refusals_have_kinds_spans_details_and_causes() {
    use ParserErrorKind as Kind;
    for (spelled, text, kind, span, message) in [
        ("list<u8>", "[1, 300]", Kind::InvalidValue, 4..7, "invalid value at 4..7"),
        ("list<u8>", "[1, true]", Kind::InvalidType, 4..8, "invalid value type at 4..8"),
        ("list<u8>", "[1 2]", Kind::UnexpectedToken, 3..4, "unexpected token: Number at 3..4"),
        ("u8", "1 2", Kind::TrailingCharacters, 2..3, "trailing characters after value at 2..3"),
        ("char", "'ab'", Kind::InvalidToken, 0..4, "invalid token at 0..4"),
        ("flags { a }", "{a, a}", Kind::DuplicateFlag, 4..5, "duplicate flag: \"a\" at 4..5"),
        (
            "record { must-have: u8 }",
            "{:}",
            Kind::WasmValueError,
            0..3,
            "error converting Wasm value: missing field \"must-have\" at 0..3",
        ),
        (
            "string",
            "\"\"\"\nabc\"\"\"",
            Kind::InvalidMultilineString,
            7..10,
            "invalid multiline string: closing \"\"\" must be on a line preceded only by spaces at 7..10",
        ),
    ] {
        let ty = ty(spelled);
        let error = from_str::<Value>(&ty, text).unwrap_err();
        assert_eq!((error.kind(), error.span()), (kind, span), "{text:?} at {spelled}");
        assert_eq!(error.to_string(), message);
        assert_eq!(explain(&ty, text).lines().next(), Some(message));
        assert_eq!(from_str::<Foreign>(&ty, text), Err(error));
    }
    for (spelled, text, cause) in [
        ("result<u8>", "err(1)", WasmValueError::UnexpectedPayload("err".into())),
        ("variant { a(u8) }", "a", WasmValueError::MissingPayload("a".into())),
        ("enum { a }", "b", WasmValueError::UnknownCase("b".into())),
        (
            "tuple<u8, u8>",
            "(1, 2, 3)",
            WasmValueError::WrongNumberOfTupleValues { want: 2, got: 3 },
        ),
        ("list<u8, 4>", "[1]", WasmValueError::WrongNumberOfElements { want: 4, got: 1 }),
    ] {
        let error = from_str::<Value>(&ty(spelled), text).unwrap_err();
        assert_eq!(error.cause(), Some(&cause), "{text} at {spelled}");
    }
    let error = from_str::<Foreign>(&ty("enum { on, off }"), " off ").unwrap_err();
    assert_eq!((error.kind(), error.span()), (Kind::WasmValueError, 0..5));
    assert_eq!(error.cause(), Some(&WasmValueError::Other("never off".into())));
}

#[test]
fn levels() {
    let nested = |levels: usize| (0..levels - 1).fold(Type::U8, |ty, _| Type::list(ty));
    let text = |levels: usize| format!("{}7{}", "[".repeat(levels - 1), "]".repeat(levels - 1));
    let value = read(&text(100), &nested(100));
    assert_eq!(to_string(&value), Ok(text(100)));
    let error = from_str::<Value>(&nested(100), &text(101)).unwrap_err();
    assert_eq!(error.kind(), ParserErrorKind::NestingTooDeep);
    let error = Parser::new("[[7]]").with_limit(2).parse_value::<Value>(&nested(3)).unwrap_err();
    assert_eq!((error.kind(), error.span()), (ParserErrorKind::NestingTooDeep, 1..2));
    assert_eq!(Parser::new("").with_limit(0).limit(), 1);
    assert_eq!(Parser::new("").with_limit(u32::MAX).limit(), 1000);
    assert!(UntypedValue::parse(&text(101)).is_err());
    assert!(UntypedFuncCall::parse(&format!("f({})", text(100))).is_ok());
    let error = UntypedFuncCall::parse(&format!("f({})", text(101))).unwrap_err();
    assert_eq!((error.kind(), error.span()), (ParserErrorKind::NestingTooDeep, 101..102));
    assert!(Parser::new(&text(1000)).with_limit(1000).parse_raw_value().is_ok());
}

#[test]
fn an_explanation_has_place_and_path() {
    let ty = ty("record { servers: list<record { host: string, port: u16 }> }");
    let text = "{servers: [\n  {host: \"a\", port: 1},\n  {host: \"b\", port: 70000},\n]}";
    let error = from_str::<Value>(&ty, text).unwrap_err();
    assert_eq!(error.path(), Some(".servers[1].port"));
    let explanation = explain(&ty, text);
    let head = "invalid value at 56..61\n --> line 3, column 21, at .servers[1].port\n";
    assert!(explanation.starts_with(head) && explanation.ends_with('\n'), "{explanation}");
}

#[test]
fn values_behind_one_another() {
    let mut parser = Parser::new(" [1] // one\n [2]{a, a} 01 'ab' 7 \"x\" // last\n");
    let numbers = Type::list(Type::U8);
    for number in 1..=2u8 {
        let value: Value = parser.parse_value(&numbers).unwrap();
        assert_eq!(value, vec![number].into());
    }
    let error = parser.parse_raw_value().unwrap_err();
    assert_eq!((error.kind(), error.span()), (ParserErrorKind::DuplicateFlag, 20..21));
    let error = parser.parse_value::<Value>(&Type::U8).unwrap_err();
    assert_eq!((error.kind(), error.span()), (ParserErrorKind::UnexpectedToken, 21..22));
    assert_eq!(parser.parse_raw_value().unwrap().to_string(), "0");
    assert_eq!(parser.parse_value(&Type::U8), Ok(Value::from(1u8)));
    let error = parser.parse_value::<Value>(&Type::CHAR).unwrap_err();
    assert_eq!((error.kind(), error.span()), (ParserErrorKind::InvalidToken, 26..30));
    let raw = parser.parse_raw_value().unwrap().into_owned();
    assert_eq!(raw.to_wasm_value(&Type::U8), Ok(Value::from(7u8)));
    let error = raw.to_wasm_value::<Value>(&Type::BOOL).unwrap_err();
    assert_eq!((error.kind(), error.span()), (ParserErrorKind::InvalidType, 31..32));
    let error = parser.finish().unwrap_err();
    assert_eq!((error.kind(), error.span()), (ParserErrorKind::TrailingCharacters, 33..36));
    let error = parser.parse_value::<Value>(&numbers).unwrap_err();
    assert_eq!((error.kind(), error.span()), (ParserErrorKind::InvalidType, 33..36));
    assert_eq!(parser.finish(), Ok(()));
    let error = parser.parse_raw_value().unwrap_err();
    assert_eq!((error.kind(), error.span()), (ParserErrorKind::UnexpectedEnd, 45..45));
}

#[test]
fn untyped_values() {
    let value = UntypedValue::parse("{%b, a,} // two").unwrap();
    assert_eq!(value.to_string(), "{a, b}");
    assert_eq!(value.source(), "{%b, a,} // two");
    let error = UntypedValue::parse("[1 2]").unwrap_err();
    assert_eq!(error.to_string(), "unexpected token: Number at 3..4");
    let explanation = wave::explain_untyped("[1 2]");
    assert!(explanation.starts_with(&format!("{error}\n --> line 1, column 4\n")), "{explanation}");
}

#[test]
fn calls() {
    let func: FuncType = "func(a: u32, b: option<string>) -> bool".parse().unwrap();
    let types: Vec<_> = func.params().collect();
    for (text, name, shown, args) in [
        ("f (1 , )", "f", "f(1)", "(1, none)"),
        ("a:b/c.d@1.0.0(1, \"x\")", "a:b/c.d@1.0.0", "a:b/c.d@1.0.0(1, \"x\")", "(1, some(\"x\"))"),
    ] {
        let call = UntypedFuncCall::parse(text).unwrap().into_owned();
        assert_eq!((call.name(), call.source()), (name, text));
        assert_eq!(call.to_string(), shown);
        let vals = call.to_wasm_params::<Value>(&types).unwrap();
        assert_eq!(DisplayFuncArgs(&vals).to_string(), args);
    }
    let call = UntypedFuncCall::parse("f( )").unwrap();
    assert_eq!((call.to_string().as_str(), call.has_params()), ("f()", false));
    assert_eq!(call.to_wasm_params::<Value>([]).unwrap(), []);
    let option = Type::option(Type::U8);
    let vals = call.to_wasm_params::<Foreign>([&option]).unwrap();
    assert_eq!(vals, [Foreign::Option(None)]);
    for (text, types, message) in [
        ("f()", vec![Type::U8], "invalid params: no params provided, but 1 required at 0..1"),
        ("f(1)", vec![Type::U8, Type::U8], "invalid params: missing required param(s) at 3..4"),
        ("f(1, 2)", vec![Type::U8], "invalid params: more param(s) than expected at 5..6"),
        ("f(300)", vec![Type::U8], "invalid value at 2..5"),
    ] {
        let error =
            UntypedFuncCall::parse(text).unwrap().to_wasm_params::<Value>(&types).unwrap_err();
        assert_eq!(error.to_string(), message);
        let params: Vec<_> =
            types.into_iter().enumerate().map(|(place, ty)| (format!("p{place}"), ty)).collect();
        let func = FuncType::new(params, []).unwrap();
        assert_eq!(explain_call(&func, text).lines().next(), Some(message));
    }
    for (text, message) in [
        (" f()", "invalid token at 0..1"),
        ("", "unexpected end of input at 0..0"),
        ("f", "unexpected end of input at 1..1"),
        ("f 1", "unexpected token: Number at 2..3"),
        ("f(,)", "unexpected token: Comma at 2..3"),
        ("f(1) 2", "trailing characters after value at 5..6"),
        ("f(())", "empty tuple at 2..4"),
    ] {
        assert_eq!(UntypedFuncCall::parse(text).unwrap_err().to_string(), message);
    }
    assert_eq!(DisplayFuncResults(&[Value::from(1u8)]).to_string(), "1");
    assert_eq!(DisplayFuncResults::<Value>(&[]).to_string(), "()");
}

#[test]
fn texts_of_types() {
    for (text, kind, span) in [
        ("list<u8", TypeErrorKind::UnexpectedEnd, 7..7),
        ("u9", TypeErrorKind::UnexpectedToken, 0..2),
        ("record { a: u8, a: u8 }", TypeErrorKind::DuplicateName, 16..17),
        ("map<list<u8>, u8>", TypeErrorKind::InvalidKeyType, 4..8),
        ("list<u8, four>", TypeErrorKind::InvalidCount, 9..13),
    ] {
        let error = Type::parse(text).unwrap_err();
        assert_eq!((error.kind(), error.span()), (kind, span.clone()), "{text}");
        let error = FuncType::parse(&format!("func(a: {text}")).unwrap_err();
        assert_eq!((error.kind(), error.span().start), (kind, span.start + 8), "{text}");
    }
    assert_eq!(ty(" list <\n// of numbers\n\tu8 , 2 , > // two").to_string(), "list<u8, 2>");
    assert_eq!(
        ty("tuple<f32, list<f64>>"),
        Type::tuple([Type::F32, Type::list(Type::F64)]).unwrap()
    );
    let all =
        Type::record(types().into_iter().enumerate().map(|(place, ty)| (format!("f{place}"), ty)));
    let func =
        FuncType::new([("a".to_owned(), all.unwrap())], [(String::new(), Type::U8)]).unwrap();
    assert_eq!(func.to_string().parse(), Ok(func));
    assert_eq!(wave::explain_type("u8") + &wave::explain_func_type("func()"), "");
    assert!(wave::explain_type("list<u9>").contains("\n --> line 1, column 6"));
    assert!(wave::explain_func_type("func(a: u9)").contains("\n --> line 1, column 9"));
}

#[test]
fn types_that_no_text_spells() {
    for ty in [
        Type::record([("a: u8, b", Type::U8)]).unwrap(),
        Type::flags(["a", "a"]).unwrap(),
        (0..100).fold(Type::U8, |ty, _| Type::list(ty)),
    ] {
        let error = from_str::<Value>(&ty, "{a: 1, b: 1}").unwrap_err();
        assert_eq!((error.kind(), error.span()), (ParserErrorKind::WasmValueError, 0..12));
        assert_eq!(error.cause(), Some(&WasmValueError::UnsupportedType(ty.to_string())));
        assert!(explain(&ty, "{}").contains("type"), "{ty}");
    }
    let ty = Type::enum_ty(["a b"]).unwrap();
    assert_eq!(to_string(&Value::make_enum(&ty, "a b").unwrap()), Err(WriterError::NoType));
}

#[test]
fn values_that_tell_no_type() {
    use Foreign::*;
    let flags = |names: &[&str]| Flags(names.iter().map(|name| name.to_string()).collect());
    let boxed = |val| std::option::Option::Some(Box::new(val));
    let named = |name: &str, val| (name.to_owned(), val);
    let case = |name: &str, val| Variant(name.to_owned(), val);
    for (val, text) in [
        (flags(&["w", "r"]), "{w, r}"),
        (List(vec![flags(&["w"]), flags(&["r", "w"])]), "[{w}, {w, r}]"),
        (flags(&[]), "{}"),
        (Record(vec![]), "{:}"),
        (
            List(vec![
                Record(vec![named("a", U8(1)), named("b", Option(None))]),
                Record(vec![named("b", Option(boxed(S8(2)))), named("a", U8(3))]),
            ]),
            "[{a: 1}, {a: 3, b: some(2)}]",
        ),
        (List(vec![List(vec![]), List(vec![Enum("ok".into())])]), "[[], [%ok]]"),
        (List(vec![case("a", None), case("b", boxed(Char('c')))]), "[a, b('c')]"),
        (List(vec![Result(Ok(None)), Result(Err(boxed(U8(1))))]), "[ok, err(1)]"),
        (Fixed(vec![Tuple(vec![Bool(true)]), Tuple(vec![Bool(false)])]), "[(true), (false)]"),
        (Fixed(vec![]), "[]"),
        (Map(vec![(U8(1), U8(2)), (U8(1), U8(3))]), "{1: 3}"),
    ] {
        assert_eq!(to_string(&val).as_deref(), Ok(text), "{val:?}");
    }
    for val in [
        Tuple(vec![]),
        Enum("a b".into()),
        Record(vec![named("a: u8, b", U8(1))]),
        List(vec![U8(1), S8(1)]),
        List(vec![List(vec![]), Fixed(vec![])]),
        List(vec![Record(vec![named("a", U8(1))]), Record(vec![named("b", U8(1))])]),
        List(vec![Tuple(vec![U8(1)]), Tuple(vec![U8(1), U8(2)])]),
        List(vec![case("a", None), case("a", boxed(U8(1)))]),
        Map(vec![(List(vec![]), U8(1))]),
    ] {
        assert_eq!(to_string(&val), Err(WriterError::NoType), "{val:?}");
    }
    let unsupported = List(vec![List(vec![]), Unsupported]);
    assert_eq!(to_string(&unsupported), Err(WriterError::UnsupportedType));
}

#[test]
fn writers_and_displays() {
    let mut writer = Writer::new(String::new());
    writer.write_value(&Value::from([1u8, 2])).unwrap();
    writer.as_mut().push(';');
    writer.write_value(&Value::from('x')).unwrap();
    assert_eq!(writer.as_mut(), "[1, 2];'x'");
    assert_eq!(DisplayValue(&Value::from((1u8, "a"))).to_string(), "(1, \"a\")");
    use std::fmt::Write;
    assert!(write!(String::new(), "{}", DisplayValue(&Foreign::Unsupported)).is_err());
}

#[test]
fn constructors_check_types() {
    let error = Value::make_list(&Type::list(Type::U8), [Value::from("a")]).unwrap_err();
    assert_eq!(error.to_string(), "expected a u8; got \"a\"");
    let error = Value::make_record(&ty("record { a: u8 }"), [("a", 1u8.into()), ("b", 1u8.into())])
        .unwrap_err();
    assert_eq!(error, WasmValueError::UnknownField("b".into()));
    let error = Value::make_flags(&ty("flags { a }"), ["b"]).unwrap_err();
    assert_eq!(error, WasmValueError::UnknownCase("b".into()));
    let error = Value::make_list(&Type::fixed_length_list(Type::U8, 2), [1u8.into()]).unwrap_err();
    assert_eq!(error, WasmValueError::WrongNumberOfElements { want: 2, got: 1 });
    assert_eq!(Type::U8.kind(), WasmTypeKind::U8);
}

#[test]
fn threads_read_at_one_type() {
    fn is_shared<T: Send + Sync + 'static>() {}
    is_shared::<(Type, Value, FuncType, ParserError, TypeError, WriterError)>();
    let ty = ty("record { a: u8, b: list<string> }");
    let threads: Vec<_> = (0..8u8)
        .map(|number| {
            let ty = ty.clone();
            thread::spawn(move || {
                for _ in 0..200 {
                    let text = format!("{{a: {number}, b: [\"x\"]}}");
                    assert_eq!(to_string(&read(&text, &ty)).as_deref(), Ok(text.as_str()));
                }
                read(&format!("{{a: {number}, b: []}}"), &ty)
            })
        })
        .collect();
    for (number, thread) in threads.into_iter().enumerate() {
        let value = thread.join().unwrap();
        assert_eq!(to_string(&value).unwrap(), format!("{{a: {number}, b: []}}"));
    }
}

#[test]
fn more_types_than_a_thread_holds() {
    let mut random = Random::new(5);
    let types: Vec<_> = (0..40).map(|_| random.ty(3)).collect();
    for _ in 0..500 {
        let ty = &types[random.below(types.len())];
        let value = random.value(ty);
        assert_eq!(read(&to_string(&value).unwrap(), ty), value);
    }
}

/// A value that is read within the reading of another.
#[derive(Clone, Debug, PartialEq)]
struct Nested(Vec<String>);

impl WasmValue for Nested {
    type Type = Type;

    fn kind(&self) -> WasmTypeKind {
        WasmTypeKind::List
    }

    fn make_string(val: std::borrow::Cow<str>) -> Self {
        let inner: Value = from_str(&Type::list(Type::STRING), &val).unwrap();
        Nested(inner.unwrap_list().map(|item| item.unwrap_string().into_owned()).collect())
    }
}

#[test]
fn reading_within_reading() {
    assert_eq!(
        from_str::<Nested>(&Type::STRING, r#""[\"a\", \"b\"]""#),
        Ok(Nested(vec!["a".into(), "b".into()]))
    );
}
