//! Reading, and why a text is refused.
use crate::library::{self, DEFAULT_LEVELS, MAX_LEVELS};
use crate::untyped::UntypedValue;
use crate::wasm::{WasmValue, WasmValueError};
use std::error::Error;
use std::fmt;

/// The bytes of a text from `start` up to, but without, `end`.
pub type Span = std::ops::Range<usize>;

/// Reads values that stand one behind the other in a text.
///
/// [`from_str`](crate::from_str) is quicker where there is one alone: a value is read here once to
/// find its end, and then at its type.
#[derive(Clone, Debug)]
pub struct Parser<'source> {
    source: &'source str,
    at: usize,
    levels: u32,
}

impl<'source> Parser<'source> {
    /// A parser at the beginning of the text.
    pub fn new(source: &'source str) -> Self {
        Parser { source, at: 0, levels: DEFAULT_LEVELS }
    }

    /// One that reads values of at most so many levels, from 1 to 1000, in place of 100. A type has
    /// at most 100, so more are of use without one. Each level takes stack.
    pub fn with_limit(self, levels: u32) -> Self {
        Parser { levels: levels.clamp(1, MAX_LEVELS), ..self }
    }

    /// The limit of levels.
    pub fn limit(&self) -> u32 {
        self.levels
    }

    /// Reads a value of the type.
    ///
    /// # Errors
    /// Where the text goes on with no value of the type. The parser is then behind the value, or
    /// behind the span of an error of syntax.
    pub fn parse_value<V: WasmValue>(&mut self, ty: &V::Type) -> Result<V, ParserError> {
        let span = self.take_value()?;
        crate::read_at(ty, &self.source[span.clone()], self.levels)
            .map_err(|error| error.shifted(span.start))
    }

    /// Reads a value without a type.
    ///
    /// # Errors
    /// Where the text goes on with no value. The parser is then behind the error's span.
    pub fn parse_raw_value(&mut self) -> Result<UntypedValue<'source>, ParserError> {
        let span = self.take_value()?;
        Ok(UntypedValue::new(self.source, span, self.levels))
    }

    /// Is `Ok` where nothing but whitespace and comments is left. It never moves the parser.
    ///
    /// # Errors
    /// [`ParserErrorKind::TrailingCharacters`] at the next token, valid or not.
    pub fn finish(&mut self) -> Result<(), ParserError> {
        let rest = &self.source[self.at..];
        if rest.trim_start_matches([' ', '\t', '\r', '\n']).is_empty() {
            return Ok(());
        }
        // behind a value, the library tells what stands there
        let before = "0\n";
        library::check_untyped(&format!("{before}{rest}"), 1).map_err(|refusal| {
            let mut error = refusal.into_parser_error("", 0);
            if error.fault.kind != ParserErrorKind::OutOfMemory {
                error.fault.span.start -= before.len();
                error.fault.span.end -= before.len();
            }
            error.shifted(self.at)
        })
    }

    /// Takes the value with which the text goes on: whitespace before it is of it, too.
    fn take_value(&mut self) -> Result<Span, ParserError> {
        let (rest, at) = (&self.source[self.at..], self.at);
        let checked = library::check_untyped(rest, self.levels)
            .map_err(|refusal| refusal.into_parser_error("", 0).shifted(at));
        let (end, taken) = match checked {
            Ok(()) => (self.source.len(), Ok(())),
            Err(error) => match error.kind() {
                ParserErrorKind::TrailingCharacters => (error.fault.span.start, Ok(())),
                ParserErrorKind::OutOfMemory => (at, Err(error)),
                _ => (error.fault.span.end, Err(error)),
            },
        };
        self.at = end;
        taken.map(|()| at..end)
    }
}

/// Why a text is refused.
#[derive(Clone, PartialEq, Eq)]
pub struct ParserError {
    fault: Box<Fault>,
}

/// Apart, so that a result is not much larger than what it is of.
#[derive(Clone, PartialEq, Eq)]
struct Fault {
    kind: ParserErrorKind,
    span: Span,
    detail: Option<String>,
    cause: Option<WasmValueError>,
    path: Option<String>,
}

impl ParserError {
    #[cold]
    pub(crate) fn new(kind: ParserErrorKind, span: Span) -> Self {
        ParserError { fault: Box::new(Fault { kind, span, detail: None, cause: None, path: None }) }
    }

    /// Of a value that can't be made.
    #[cold]
    pub(crate) fn of_cause(cause: WasmValueError, span: Span) -> Self {
        let mut error = ParserError::new(ParserErrorKind::WasmValueError, span);
        error.fault.cause = Some(cause);
        error
    }

    /// Of a type whose values can't be read.
    pub(crate) fn unsupported_type(ty: &str, span: Span) -> Self {
        ParserError::of_cause(WasmValueError::UnsupportedType(ty.to_owned()), span)
    }

    /// The error that the explanation explains: its message stands before the line of the place, and
    /// the path at the end of that line.
    #[cold]
    pub(crate) fn explained(kind: ParserErrorKind, span: Span, explanation: &str) -> Self {
        let (message, place) = explanation.split_once("\n --> ").unwrap_or((explanation, ""));
        let words = message.strip_prefix(kind.words());
        let at = format!(" at {}..{}", span.start, span.end);
        let words = words.and_then(|words| words.strip_suffix(at.as_str()));
        let words = words.and_then(|words| words.strip_prefix(": "));
        let line = place.lines().next().unwrap_or_default();
        let path = line.split_once(", at ").map(|(_, path)| path.to_owned());
        let mut error = ParserError::new(kind, span);
        error.fault.path = path;
        if kind == ParserErrorKind::WasmValueError {
            error.fault.cause = words.map(WasmValueError::from_words);
        } else {
            error.fault.detail = words.map(str::to_owned);
        }
        error
    }

    /// The error of a text before which so many bytes stand.
    pub(crate) fn shifted(mut self, by: usize) -> Self {
        if self.fault.kind != ParserErrorKind::OutOfMemory {
            self.fault.span = self.fault.span.start + by..self.fault.span.end + by;
        }
        self
    }

    /// The kind of the error.
    pub fn kind(&self) -> ParserErrorKind {
        self.fault.kind
    }

    /// The bytes of the text where it arose. One of one byte may end within a char.
    pub fn span(&self) -> Span {
        self.fault.span.clone()
    }

    /// What more there is to say, if anything.
    pub fn detail(&self) -> Option<&str> {
        self.fault.detail.as_deref()
    }

    /// Where within the value it arose, as `.servers[0].port`, where that is told.
    pub fn path(&self) -> Option<&str> {
        self.fault.path.as_deref()
    }

    /// Why a value can't be made, where the kind is [`ParserErrorKind::WasmValueError`].
    pub fn cause(&self) -> Option<&WasmValueError> {
        self.fault.cause.as_ref()
    }
}

impl fmt::Debug for ParserError {
    fn fmt(&self, f: &mut fmt::Formatter<'_>) -> fmt::Result {
        f.debug_struct("ParserError")
            .field("kind", &self.fault.kind)
            .field("span", &self.fault.span)
            .field("detail", &self.fault.detail)
            .field("cause", &self.fault.cause)
            .field("path", &self.fault.path)
            .finish()
    }
}

impl fmt::Display for ParserError {
    fn fmt(&self, f: &mut fmt::Formatter<'_>) -> fmt::Result {
        f.write_str(self.fault.kind.words())?;
        if let Some(cause) = &self.fault.cause {
            write!(f, ": {cause}")?;
        } else if let Some(detail) = &self.fault.detail {
            write!(f, ": {detail}")?;
        }
        write!(f, " at {}..{}", self.fault.span.start, self.fault.span.end)
    }
}

impl Error for ParserError {
    fn source(&self) -> Option<&(dyn Error + 'static)> {
        self.fault.cause.as_ref().map(|cause| cause as _)
    }
}

/// A display fails where what it shows can't be read.
impl From<ParserError> for fmt::Error {
    fn from(_: ParserError) -> Self {
        fmt::Error
    }
}

/// The kind of a [`ParserError`].
#[derive(Clone, Copy, Debug, PartialEq, Eq, Hash)]
#[non_exhaustive]
pub enum ParserErrorKind {
    /// `()` where a value is expected: both parentheses.
    EmptyTuple,
    /// Never returned.
    MultipleChars,
    /// An escape that stands for no char: the char, or the backslash in a string.
    InvalidEscape,
    /// A multiline string whose first, last or other line is not right: the place in it.
    InvalidMultilineString,
    /// Too many or too few values for the parameters.
    InvalidParams,
    /// A place where no token begins.
    InvalidToken,
    /// A value of another form than the type takes: the value, or the key of a record or map.
    InvalidType,
    /// A number that doesn't fit its type: the number. A field that the type hasn't: the record.
    InvalidValue,
    /// Something behind the value: the next token.
    TrailingCharacters,
    /// The end of the text where more is expected.
    UnexpectedEnd,
    /// A token that can't stand here.
    UnexpectedToken,
    /// A field that was named before: the later key.
    DuplicateField,
    /// A flag that was named before: the later label.
    DuplicateFlag,
    /// A value that can't be made, for a cause.
    WasmValueError,
    /// A value inside too many others: the last token before it.
    NestingTooDeep,
    /// Memory was refused, at 0..0.
    OutOfMemory,
}

impl ParserErrorKind {
    /// The kind of this number in the C library.
    pub(crate) fn of_number(number: u32) -> Self {
        match number {
            1 => ParserErrorKind::EmptyTuple,
            2 => ParserErrorKind::MultipleChars,
            3 => ParserErrorKind::InvalidEscape,
            4 => ParserErrorKind::InvalidMultilineString,
            5 => ParserErrorKind::InvalidParams,
            6 => ParserErrorKind::InvalidToken,
            7 => ParserErrorKind::InvalidType,
            8 => ParserErrorKind::InvalidValue,
            9 => ParserErrorKind::TrailingCharacters,
            10 => ParserErrorKind::UnexpectedEnd,
            11 => ParserErrorKind::UnexpectedToken,
            12 => ParserErrorKind::DuplicateField,
            13 => ParserErrorKind::DuplicateFlag,
            14 => ParserErrorKind::WasmValueError,
            15 => ParserErrorKind::NestingTooDeep,
            16 => ParserErrorKind::OutOfMemory,
            // a kind newer than this crate
            _ => ParserErrorKind::InvalidValue,
        }
    }

    fn words(self) -> &'static str {
        match self {
            ParserErrorKind::EmptyTuple => "empty tuple",
            ParserErrorKind::MultipleChars => "multiple characters in char value",
            ParserErrorKind::InvalidEscape => "invalid character escape",
            ParserErrorKind::InvalidMultilineString => "invalid multiline string",
            ParserErrorKind::InvalidParams => "invalid params",
            ParserErrorKind::InvalidToken => "invalid token",
            ParserErrorKind::InvalidType => "invalid value type",
            ParserErrorKind::InvalidValue => "invalid value",
            ParserErrorKind::TrailingCharacters => "trailing characters after value",
            ParserErrorKind::UnexpectedEnd => "unexpected end of input",
            ParserErrorKind::UnexpectedToken => "unexpected token",
            ParserErrorKind::DuplicateField => "duplicate field",
            ParserErrorKind::DuplicateFlag => "duplicate flag",
            ParserErrorKind::WasmValueError => "error converting Wasm value",
            ParserErrorKind::NestingTooDeep => "value nesting too deep",
            ParserErrorKind::OutOfMemory => "out of memory",
        }
    }
}

impl fmt::Display for ParserErrorKind {
    fn fmt(&self, f: &mut fmt::Formatter<'_>) -> fmt::Result {
        f.write_str(self.words())
    }
}

#[cfg(test)]
mod tests {
    use super::*;

    #[test]
    fn an_explanation_has_message_and_path() {
        let error = ParserError::explained(
            ParserErrorKind::WasmValueError,
            4..7,
            "error converting Wasm value: missing field \"must-have\" at 4..7\n --> line 1, column 5, at .a[1]\n  | ..\n",
        );
        let cause = WasmValueError::MissingField("must-have".into());
        assert_eq!((error.cause(), error.detail()), (Some(&cause), None));
        assert_eq!(error.path(), Some(".a[1]"));
        let message = "error converting Wasm value: missing field \"must-have\" at 9..12";
        assert_eq!(error.shifted(5).to_string(), message);
        let error = ParserError::explained(
            ParserErrorKind::UnexpectedToken,
            4..7,
            "unexpected token: String at 4..7\n --> line 1, column 5\n",
        );
        assert_eq!((error.detail(), error.path()), (Some("String"), None));
    }
}
