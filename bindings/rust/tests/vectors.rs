//! The rows of ../../tests/vectors.jsonl that are of a type and a value, a value or a call.
mod support {
    pub mod json;
}

use std::fs;
use std::path::Path;
use support::json::{self, Json};
use wave::parser::Parser;
use wave::untyped::{UntypedFuncCall, UntypedValue};
use wave::value::{FuncType, Type, Value};
use wave::wasm::{DisplayFuncArgs, WasmFunc};

/// The type of the sample of this name, or of this text.
fn type_text(name: &str) -> &str {
    match name {
        "bytes" => "list<u8>",
        "perms" => "flags { read, write, exec }",
        "status" => "enum { ok, not-found }",
        "response" => "variant { empty, body(list<u8>), err(string) }",
        "example" => "record { must-have: u8, optional: option<u8> }",
        "counts" => "map<string, u32>",
        "quad" => "list<u8, 4>",
        text => text,
    }
}

fn levels_of(word: &str) -> Option<u32> {
    word.parse()
        .ok()
        .filter(|levels: &u32| (1..=1000).contains(levels) && word == levels.to_string())
}

/// What the program would print, and explain where the text is refused; `None` where it isn't of
/// such a row.
fn answer(words: &[&str], text: &str) -> Option<(Result<String, String>, Option<String>)> {
    match words {
        ["read", name, more @ ..] => {
            let ty = Type::parse(type_text(name)).ok()?;
            if more.is_empty() {
                let read = wave::from_str::<Value>(&ty, text);
                let explanation = wave::explain(&ty, text);
                let printed = read
                    .map_err(|error| error.to_string())
                    .map(|value| wave::to_string(&value).unwrap());
                return Some((printed, Some(explanation)));
            }
            let [levels] = more else { return None };
            let mut parser = Parser::new(text).with_limit(levels_of(levels)?);
            let read =
                parser.parse_value::<Value>(&ty).and_then(|value| parser.finish().map(|()| value));
            Some((
                read.map_err(|error| error.to_string())
                    .map(|value| wave::to_string(&value).unwrap()),
                None,
            ))
        }
        ["value"] => Some((
            UntypedValue::parse(text)
                .map_err(|error| error.to_string())
                .map(|value| value.to_string()),
            None,
        )),
        ["value", levels] => {
            let mut parser = Parser::new(text).with_limit(levels_of(levels)?);
            let read = parser
                .parse_raw_value()
                .and_then(|value| parser.finish().map(|()| value.to_string()));
            Some((read.map_err(|error| error.to_string()), None))
        }
        ["call"] => Some((
            UntypedFuncCall::parse(text)
                .map_err(|error| error.to_string())
                .map(|call| call.to_string()),
            None,
        )),
        ["call", func] => {
            let func = FuncType::parse(func).ok()?;
            let types: Vec<_> = func.params().collect();
            let call = UntypedFuncCall::parse(text);
            let shown = call.and_then(|call| {
                let vals = call.to_wasm_params::<Value>(&types)?;
                Ok(format!("{}{}", call.name(), DisplayFuncArgs(&vals)))
            });
            Some((shown.map_err(|error| error.to_string()), None))
        }
        _ => None,
    }
}

#[test]
fn rows() {
    let path = Path::new(env!("CARGO_MANIFEST_DIR")).join("../../tests/vectors.jsonl");
    let rows =
        fs::read_to_string(&path).unwrap_or_else(|error| panic!("{}: {error}", path.display()));
    let (mut tried, mut faults) = (0, Vec::new());
    for line in rows.lines() {
        let row = json::parse(line).unwrap_or_else(|| panic!("{line}"));
        let words: Vec<&str> = row.get("words").items().iter().map(Json::text).collect();
        let status = row.get("status").number();
        if words.contains(&"--lines") || status > 1 {
            continue;
        }
        let Some((printed, explanation)) = answer(&words, row.get("stdin").text()) else {
            continue;
        };
        tried += 1;
        let (seen, line) = match &printed {
            Ok(text) => (0, text),
            Err(text) => (1, text),
        };
        let line = format!("{line}\n");
        let due = match row.get("stdout") {
            Json::Items(texts) => texts.iter().map(Json::text).any(|text| text == line),
            text => text.text() == line,
        };
        if seen != status || !due {
            faults.push(format!("{}: status {seen}, {line}", row.get("name").text()));
        }
        if let (Json::Text(wanted), Some(explanation)) = (row.get("stderr"), explanation) {
            if *wanted != explanation {
                faults.push(format!("{}: explained\n{explanation}", row.get("name").text()));
            }
        }
    }
    assert!(faults.is_empty(), "{} of {tried} rows:\n{}", faults.len(), faults.join("\n"));
    assert!(tried > 400, "only {tried} rows were tried");
}
