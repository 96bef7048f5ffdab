//! Values and calls that are read without a type.
use crate::library;
use crate::parser::{ParserError, Span};
use crate::tape::{told, Fault, Reader};
use crate::wasm::{DisplayType, WasmType, WasmValue};
use std::borrow::Cow;
use std::fmt;

/// A text that is a value of some type. Nothing is decoded.
#[derive(Clone, Debug)]
pub struct UntypedValue<'source> {
    source: Cow<'source, str>,
    span: Span,
    levels: u32,
}

impl<'source> UntypedValue<'source> {
    pub(crate) fn new(source: &'source str, span: Span, levels: u32) -> Self {
        UntypedValue { source: Cow::Borrowed(source), span, levels }
    }

    /// The whole text as a value.
    ///
    /// # Errors
    /// Where it is none, of whatever type.
    pub fn parse(source: &'source str) -> Result<Self, ParserError> {
        let levels = library::DEFAULT_LEVELS;
        library::check_untyped(source, levels)
            .map_err(|refusal| refusal.into_parser_error("", 0))?;
        Ok(UntypedValue::new(source, 0..source.len(), levels))
    }

    /// The same with its own copy of the text.
    pub fn into_owned(self) -> UntypedValue<'static> {
        UntypedValue {
            source: Cow::Owned(self.source.into_owned()),
            span: self.span,
            levels: self.levels,
        }
    }

    /// The text in which the value stands.
    pub fn source(&self) -> &str {
        &self.source
    }

    /// The value of the type that this is.
    ///
    /// # Errors
    /// Where it is none, with the first fault in the text, as [`from_str`](crate::from_str) tells
    /// it.
    pub fn to_wasm_value<V: WasmValue>(&self, ty: &V::Type) -> Result<V, ParserError> {
        crate::read_at(ty, self.text(), self.levels).map_err(|error| error.shifted(self.span.start))
    }

    fn text(&self) -> &str {
        &self.source[self.span.clone()]
    }
}

/// In one line, with the tokens of the text but for blanks, comments and last commas.
impl fmt::Display for UntypedValue<'_> {
    fn fmt(&self, f: &mut fmt::Formatter<'_>) -> fmt::Result {
        f.write_str(&library::untyped(self.text(), self.levels).map_err(|_| fmt::Error)?)
    }
}

/// A text that is a call, `name(1, "two")`, of a function of some type. Nothing is decoded.
#[derive(Clone, Debug)]
pub struct UntypedFuncCall<'source> {
    source: Cow<'source, str>,
    name: usize,
    has_params: bool,
}

impl<'source> UntypedFuncCall<'source> {
    /// The whole text as a call.
    ///
    /// # Errors
    /// Where it is none, of whatever function.
    pub fn parse(source: &'source str) -> Result<Self, ParserError> {
        let has_params = library::check_call(source)
            .map_err(|refusal| refusal.into_parser_error("func()", source.len()))?;
        Ok(UntypedFuncCall { source: Cow::Borrowed(source), name: name_end(source), has_params })
    }

    /// The same with its own copy of the text.
    pub fn into_owned(self) -> UntypedFuncCall<'static> {
        UntypedFuncCall {
            source: Cow::Owned(self.source.into_owned()),
            name: self.name,
            has_params: self.has_params,
        }
    }

    /// The text of the call.
    pub fn source(&self) -> &str {
        &self.source
    }

    /// The name of the function.
    pub fn name(&self) -> &str {
        &self.source[..self.name]
    }

    /// Whether anything stands between the parentheses.
    pub fn has_params(&self) -> bool {
        self.has_params
    }

    /// The parameters at these types. Options at the end may be left out, and are `none` then.
    ///
    /// # Errors
    /// Where a parameter is none of its type, or there are too many or too few.
    pub fn to_wasm_params<'types, V: WasmValue + 'static>(
        &self,
        types: impl IntoIterator<Item = &'types V::Type>,
    ) -> Result<Vec<V>, ParserError> {
        let types: Vec<_> = types.into_iter().collect();
        let func = spelled_func(types.iter().copied(), std::iter::empty());
        let func = func.map_err(|ty| ParserError::unsupported_type(&ty, 0..self.source.len()))?;
        match library::call(&func, &self.source, |told| params_of::<V>(told, &types)) {
            Ok(Ok(vals)) => Ok(vals),
            Ok(Err(cause)) => Err(ParserError::of_cause(*cause, 0..self.source.len())),
            Err(refusal) => Err(refusal.into_parser_error(&func, self.source.len())),
        }
    }
}

/// As [`UntypedValue`] is displayed.
impl fmt::Display for UntypedFuncCall<'_> {
    fn fmt(&self, f: &mut fmt::Formatter<'_>) -> fmt::Result {
        f.write_str(self.name())?;
        if !self.has_params {
            return f.write_str("()");
        }
        // the parameters stand in the form of a tuple, which takes a level more
        let params = library::untyped(&self.source[self.name..], library::MAX_LEVELS);
        f.write_str(&params.map_err(|_| fmt::Error)?)
    }
}

/// The text that spells the type of functions with these parameters, to those without a name of
/// which one is given; or the text of a type that no text spells.
pub(crate) fn spelled_func<'a, T: WasmType + 'a>(
    types: impl Iterator<Item = &'a T>,
    mut names: impl Iterator<Item = Cow<'a, str>>,
) -> Result<String, String> {
    let mut func = String::from("func(");
    for (place, ty) in types.enumerate() {
        if place > 0 {
            func.push_str(", ");
        }
        match names.next() {
            Some(name) => func.push_str(&name),
            None => {
                func.push('p');
                func.push_str(&place.to_string());
            }
        }
        func.push_str(": ");
        func.push_str(&ty.spelled().ok_or_else(|| DisplayType(ty).to_string())?);
    }
    func.push(')');
    Ok(func)
}

/// Where the name ends with which the call begins: before a blank, a comment or the parenthesis,
/// none of which is in a name.
fn name_end(call: &str) -> usize {
    let bytes = call.as_bytes();
    let is_end = |place: &usize| {
        matches!(bytes[*place], b'(' | b' ' | b'\t' | b'\r' | b'\n')
            || bytes[*place..].starts_with(b"//")
    };
    (0..bytes.len()).find(is_end).unwrap_or(bytes.len())
}

/// The parameters, of the tape of a call: the name, and the values one behind the other.
fn params_of<V: WasmValue>(tape: &[u8], types: &[&V::Type]) -> Result<Vec<V>, Fault> {
    Reader::whole(tape, |tape| {
        tape.text()?;
        let mut types = types.iter();
        tape.parts(types.len(), |tape| V::take_from_tape(told(types.next())?, tape))
    })
}
