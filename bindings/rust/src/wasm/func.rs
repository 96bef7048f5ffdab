//! Functions.
use super::WasmType;
use std::borrow::Cow;

/// The type of a function; [`value::FuncType`](crate::value::FuncType) is one.
pub trait WasmFunc {
    /// The types of parameters and results.
    type Type: WasmType;

    /// The types of the parameters.
    fn params(&self) -> Box<dyn Iterator<Item = Self::Type> + '_>;

    /// The names of the parameters, as many as there are, or none.
    fn param_names(&self) -> Box<dyn Iterator<Item = Cow<'_, str>> + '_> {
        Box::new(std::iter::empty())
    }

    /// The types of the results.
    fn results(&self) -> Box<dyn Iterator<Item = Self::Type> + '_>;

    /// The names of the results, as many as there are, or none.
    fn result_names(&self) -> Box<dyn Iterator<Item = Cow<'_, str>> + '_> {
        Box::new(std::iter::empty())
    }
}
