//! The types of functions.
use super::parse::{self, TypeError};
use super::Type;
use crate::wasm::{DisplayFunc, WasmFunc, WasmValueError};
use std::borrow::Cow;
use std::fmt;
use std::str::FromStr;

/// The type of a function: its parameters and results.
#[derive(Clone, Debug, PartialEq, Eq)]
pub struct FuncType {
    params: Vec<(String, Type)>,
    results: Vec<(String, Type)>,
}

impl FuncType {
    /// The type of functions with these parameters and results, each with its name.
    ///
    /// # Errors
    /// Where a parameter's name is empty, or that of one among several results.
    pub fn new(
        params: impl Into<Vec<(String, Type)>>,
        results: impl Into<Vec<(String, Type)>>,
    ) -> Result<Self, WasmValueError> {
        let (params, results) = (params.into(), results.into());
        let lacks_name = |row: &[(String, Type)]| row.iter().any(|(name, _)| name.is_empty());
        let fault = if lacks_name(&params) {
            "func params must be named"
        } else if results.len() > 1 && lacks_name(&results) {
            "funcs with more than one result must have all results named"
        } else {
            return Ok(FuncType { params, results });
        };
        Err(WasmValueError::Other(fault.to_owned()))
    }

    /// The function's type that the text spells, as in WIT: `func(a: u8, b: option<string>) ->
    /// bool`.
    ///
    /// # Errors
    /// Where it spells none, why and where.
    pub fn parse(text: &str) -> Result<Self, TypeError> {
        let (params, results) = parse::func_of(text)?;
        Ok(FuncType { params, results })
    }
}

/// As [`FuncType::parse`].
impl FromStr for FuncType {
    type Err = TypeError;

    fn from_str(text: &str) -> Result<Self, TypeError> {
        FuncType::parse(text)
    }
}

impl WasmFunc for FuncType {
    type Type = Type;

    fn params(&self) -> Box<dyn Iterator<Item = Type> + '_> {
        Box::new(self.params.iter().map(|(_, ty)| ty.clone()))
    }

    fn param_names(&self) -> Box<dyn Iterator<Item = Cow<'_, str>> + '_> {
        Box::new(self.params.iter().map(|(name, _)| Cow::Borrowed(name.as_str())))
    }

    fn results(&self) -> Box<dyn Iterator<Item = Type> + '_> {
        Box::new(self.results.iter().map(|(_, ty)| ty.clone()))
    }

    fn result_names(&self) -> Box<dyn Iterator<Item = Cow<'_, str>> + '_> {
        let names = self.results.iter().map(|(name, _)| Cow::Borrowed(name.as_str()));
        Box::new(names.filter(|name| !name.is_empty()))
    }
}

impl fmt::Display for FuncType {
    fn fmt(&self, f: &mut fmt::Formatter<'_>) -> fmt::Result {
        DisplayFunc(self.clone()).fmt(f)
    }
}

#[cfg(test)]
mod tests {
    use super::*;

    #[test]
    fn names_that_lack() {
        let row = |names: &[&str]| {
            names.iter().map(|name| (name.to_string(), Type::U8)).collect::<Vec<_>>()
        };
        let fault = |params: &[&str], results: &[&str]| {
            FuncType::new(row(params), row(results)).map_err(|error| error.to_string())
        };
        assert_eq!(fault(&["a", ""], &["", ""]), Err("func params must be named".into()));
        assert_eq!(
            fault(&["a"], &["", "r"]),
            Err("funcs with more than one result must have all results named".into())
        );
        assert!(fault(&["a"], &[""]).is_ok());
        assert!(fault(&[], &["r", "s"]).is_ok());
    }
}
