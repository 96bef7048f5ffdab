//! Reads the arguments of a call at a function's type, as a command that runs functions would:
//!
//! ```text
//! $ cargo run --example run 'func(name: string, times: option<u8>)' 'greet("wave", 2)'
//! greet: name = "wave", times = some(2)
//! ```
use std::env;
use std::process::ExitCode;
use wave::parser::ParserError;
use wave::untyped::UntypedFuncCall;
use wave::value::{FuncType, Value};
use wave::wasm::{DisplayValue, WasmFunc};

/// What the call hands to the function.
fn bind(func: &FuncType, call: &str) -> Result<String, ParserError> {
    let call = UntypedFuncCall::parse(call)?;
    let types: Vec<_> = func.params().collect();
    let args: Vec<Value> = call.to_wasm_params(&types)?;
    let told =
        func.param_names().zip(&args).map(|(name, arg)| format!("{name} = {}", DisplayValue(arg)));
    Ok(format!("{}: {}", call.name(), told.collect::<Vec<_>>().join(", ")))
}

fn main() -> ExitCode {
    let words: Vec<String> = env::args().skip(1).collect();
    let [func, call] = words.as_slice() else {
        eprintln!("usage: run FUNC CALL");
        return ExitCode::from(2);
    };
    let func = match FuncType::parse(func) {
        Ok(func) => func,
        Err(error) => {
            eprintln!("{error}");
            return ExitCode::from(2);
        }
    };
    match bind(&func, call) {
        Ok(told) => {
            println!("{told}");
            ExitCode::SUCCESS
        }
        Err(_) => {
            eprint!("{}", wave::explain_call(&func, call));
            ExitCode::FAILURE
        }
    }
}
