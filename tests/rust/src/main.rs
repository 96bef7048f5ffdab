//! What the Rust crate answers on the cases of tests/beside-rust.
//!
//! Standard input is a row of cases: of each a line `WAY BYTES BYTES`, so many bytes of a type, and so many of a text. The answer
//! on each is a line `STATUS BYTES` and so many bytes, the line that `wave` has to print, without its line feed. The ways are
//! `value`, `call`, `read` (at the type), `params` (a call at the type of a function), and `met`, whose answer is the fault of type that
//! is met first in the text, and an empty line where there is none; the statuses are those of `wave`, and 101 where the crate panics.
mod met;
mod types;

use met::Source;
use std::io::{BufRead, Read, Write};
use std::panic::{self, AssertUnwindSafe};
use wasm_wave::parser::{Parser, ParserError};
use wasm_wave::untyped::{UntypedFuncCall, UntypedValue};
use wasm_wave::value::{Type, Value};
use wasm_wave::wasm::DisplayFuncArgs;

fn answer(way: &str, types: &[Type], text: &str) -> Result<String, ParserError> {
    Ok(match way {
        "value" => UntypedValue::parse(text)?.to_string(),
        "call" => UntypedFuncCall::parse(text)?.to_string(),
        "read" => {
            let value: Value = wasm_wave::from_str(&types[0], text)?;
            wasm_wave::to_string(&value).expect("a canonical text")
        }
        "params" => {
            let call = UntypedFuncCall::parse(text)?;
            let values: Vec<Value> = call.to_wasm_params(types)?;
            format!("{}{}", call.name(), DisplayFuncArgs(&values))
        }
        "met" => {
            let value = Parser::new(text).parse_raw_value()?;
            Source(text).of(value.node(), &types[0]).err().unwrap_or_default()
        }
        _ => unreachable!("no way: {way}"),
    })
}

fn status_and_line(way: &str, ty: &str, text: &[u8]) -> (u8, String) {
    let Ok(text) = str::from_utf8(text) else {
        return (3, "input is not UTF-8".to_string());
    };
    let types = match way {
        "read" | "met" => vec![types::value_type(ty)],
        "params" => types::params(ty),
        _ => Vec::new(),
    };
    panic::set_hook(Box::new(|_| ()));
    let answered = panic::catch_unwind(AssertUnwindSafe(|| answer(way, &types, text)));
    drop(panic::take_hook());
    match answered {
        Ok(Ok(line)) => (0, line),
        Ok(Err(refusal)) => (1, refusal.to_string()),
        Err(_) => (101, String::new()),
    }
}

fn taken(input: &mut impl Read, bytes: &str) -> Vec<u8> {
    let mut part = vec![0; bytes.parse().expect("a number of bytes")];
    input.read_exact(&mut part).expect("as many bytes as were told");
    part
}

fn main() {
    let mut input = std::io::stdin().lock();
    let mut output = std::io::stdout().lock();
    let mut head = String::new();
    while input.read_line(&mut head).expect("a line") > 0 {
        let words: Vec<&str> = head.split_whitespace().collect();
        let ty = taken(&mut input, words[1]);
        let text = taken(&mut input, words[2]);
        let (status, line) = status_and_line(words[0], str::from_utf8(&ty).expect("UTF-8"), &text);
        write!(output, "{status} {}\n{line}", line.len()).expect("a reader of the answers");
        head.clear();
    }
}
