//! Types made from values that tell none.
use crate::value::Type;
use crate::wasm::{WasmTypeKind, WasmValue};
use crate::writer::WriterError;
use std::borrow::Cow;

/// What is known of a type from the values of it that were seen. The canonical text of a value is
/// the same at each type that it has, so what is not known may be anything.
#[derive(Clone, Debug, PartialEq)]
pub(crate) enum Shape {
    /// Nothing was seen.
    Any,
    /// A kind without parts.
    Leaf(WasmTypeKind),
    List(Box<Shape>),
    /// A list of this length, once one was seen.
    Fixed(Box<Shape>, Option<u32>),
    /// The fields, once a record was seen.
    Record(Option<Vec<(String, Shape)>>),
    Tuple(Option<Vec<Shape>>),
    /// The cases that were seen.
    Variant(Vec<(String, Payload)>),
    Enum(Vec<String>),
    Option(Box<Shape>),
    Result(Payload, Payload),
    /// The names that were seen, in the order of their first places.
    Flags(Vec<String>),
    Map(Box<Shape>, Box<Shape>),
}

/// What is known of a payload.
#[derive(Clone, Debug, PartialEq)]
pub(crate) enum Payload {
    /// The case was not seen.
    Unseen,
    /// There is none.
    Without,
    With(Box<Shape>),
}

impl Shape {
    /// The shape of the value.
    pub(crate) fn of<V: WasmValue>(val: &V) -> Result<Shape, WriterError> {
        let mut shape = Shape::Any;
        shape.widen(val)?;
        Ok(shape)
    }

    /// What is known of a type of this kind, none of whose values was seen.
    fn before(kind: WasmTypeKind) -> Shape {
        let any = || Box::new(Shape::Any);
        match kind {
            WasmTypeKind::List => Shape::List(any()),
            WasmTypeKind::FixedLengthList => Shape::Fixed(any(), None),
            WasmTypeKind::Record => Shape::Record(None),
            WasmTypeKind::Tuple => Shape::Tuple(None),
            WasmTypeKind::Variant => Shape::Variant(Vec::new()),
            WasmTypeKind::Enum => Shape::Enum(Vec::new()),
            WasmTypeKind::Option => Shape::Option(any()),
            WasmTypeKind::Result => Shape::Result(Payload::Unseen, Payload::Unseen),
            WasmTypeKind::Flags => Shape::Flags(Vec::new()),
            WasmTypeKind::Map => Shape::Map(any(), any()),
            leaf => Shape::Leaf(leaf),
        }
    }

    /// Takes the value in, too: what is known then is true of it and of those before.
    ///
    /// [`WriterError::UnsupportedType`] where it has a part that has no text,
    /// [`WriterError::NoType`] where no type has it and those before.
    fn widen<V: WasmValue>(&mut self, val: &V) -> Result<(), WriterError> {
        let kind = val.kind();
        if !kind.has_values() {
            return Err(WriterError::UnsupportedType);
        }
        if let Shape::Any = self {
            *self = Shape::before(kind);
        }
        match (self, kind) {
            (Shape::Leaf(leaf), kind) => require(*leaf == kind),
            (Shape::List(element), WasmTypeKind::List) => {
                element.widen_by_all(val.unwrap_list()).map(drop)
            }
            (Shape::Fixed(element, length), WasmTypeKind::FixedLengthList) => {
                let count = element.widen_by_all(val.unwrap_list())?;
                require(*length.get_or_insert(count) == count)
            }
            (Shape::Record(fields), WasmTypeKind::Record) => widen_fields(fields, val),
            (Shape::Tuple(parts), WasmTypeKind::Tuple) => widen_parts(parts, val),
            (Shape::Variant(cases), WasmTypeKind::Variant) => widen_case(cases, val),
            (Shape::Enum(cases), WasmTypeKind::Enum) => {
                add(cases, val.unwrap_enum());
                Ok(())
            }
            (Shape::Option(some), WasmTypeKind::Option) => match val.unwrap_option() {
                Some(payload) => some.widen(&*payload),
                None => Ok(()),
            },
            (Shape::Result(ok, err), WasmTypeKind::Result) => match val.unwrap_result() {
                Ok(payload) => ok.widen(payload.as_deref()),
                Err(payload) => err.widen(payload.as_deref()),
            },
            (Shape::Flags(names), WasmTypeKind::Flags) => {
                val.unwrap_flags().for_each(|name| add(names, name));
                Ok(())
            }
            (Shape::Map(key, value), WasmTypeKind::Map) => {
                val.unwrap_map().try_for_each(|(own_key, own_value)| {
                    key.widen(&*own_key)?;
                    value.widen(&*own_value)
                })
            }
            _ => Err(WriterError::NoType),
        }
    }

    /// Takes the values in; how many there are.
    fn widen_by_all<'a, V: WasmValue + 'a>(
        &mut self,
        vals: impl Iterator<Item = Cow<'a, V>>,
    ) -> Result<u32, WriterError> {
        let mut count = 0u32;
        for val in vals {
            self.widen(&*val)?;
            count = count.checked_add(1).ok_or(WriterError::NoType)?;
        }
        Ok(count)
    }

    /// A type of the shape: what is not known may be anything, and is `bool` here. `None` where
    /// there is none, as of a tuple without parts.
    pub(crate) fn into_type(self) -> Option<Type> {
        Some(match self {
            Shape::Any => Type::BOOL,
            Shape::Leaf(kind) => Type::simple(kind)?,
            Shape::List(element) => Type::list(element.into_type()?),
            Shape::Fixed(element, length) => Type::fixed_length_list(element.into_type()?, length?),
            // no type has no fields; the text of none is that of one whose only field is left out
            Shape::Record(Some(fields)) if fields.is_empty() => {
                Type::record([("a", Type::option(Type::BOOL))])?
            }
            Shape::Record(fields) => {
                let fields = fields?.into_iter();
                let types = fields.map(|(name, shape)| Some((name, shape.into_type()?)));
                Type::record(types.collect::<Option<Vec<_>>>()?)?
            }
            Shape::Tuple(parts) => {
                let types = parts?.into_iter().map(Shape::into_type);
                Type::tuple(types.collect::<Option<Vec<_>>>()?)?
            }
            Shape::Variant(cases) => {
                let cases = cases.into_iter();
                let types = cases.map(|(name, payload)| Some((name, payload.into_type()?)));
                Type::variant(types.collect::<Option<Vec<_>>>()?)?
            }
            Shape::Enum(cases) => Type::enum_ty(cases)?,
            Shape::Option(some) => Type::option(some.into_type()?),
            Shape::Result(ok, err) => Type::result(ok.into_type()?, err.into_type()?),
            // the text of no flags is the same at any names
            Shape::Flags(names) if names.is_empty() => Type::flags(["a"])?,
            Shape::Flags(names) => Type::flags(names)?,
            Shape::Map(key, val) => Type::map(key.into_type()?, val.into_type()?)?,
        })
    }
}

impl Payload {
    /// Takes the payload of one more value in.
    fn widen<V: WasmValue>(&mut self, payload: Option<&V>) -> Result<(), WriterError> {
        match (self, payload) {
            (Payload::Without, None) => Ok(()),
            (Payload::With(shape), Some(val)) => shape.widen(val),
            (unseen @ Payload::Unseen, None) => {
                *unseen = Payload::Without;
                Ok(())
            }
            (unseen @ Payload::Unseen, Some(val)) => {
                *unseen = Payload::With(Box::new(Shape::of(val)?));
                Ok(())
            }
            _ => Err(WriterError::NoType),
        }
    }

    fn into_type(self) -> Option<Option<Type>> {
        match self {
            Payload::With(shape) => shape.into_type().map(Some),
            Payload::Unseen | Payload::Without => Some(None),
        }
    }
}

/// Adds the name where it isn't there.
fn add(names: &mut Vec<String>, name: Cow<'_, str>) {
    if names.iter().all(|own| *own != name) {
        names.push(name.into_owned());
    }
}

fn widen_case<V: WasmValue>(
    cases: &mut Vec<(String, Payload)>,
    val: &V,
) -> Result<(), WriterError> {
    let (name, payload) = val.unwrap_variant();
    let place = cases.iter().position(|(case, _)| *case == name);
    let place = place.unwrap_or_else(|| {
        cases.push((name.into_owned(), Payload::Unseen));
        cases.len() - 1
    });
    cases[place].1.widen(payload.as_deref())
}

fn widen_fields<V: WasmValue>(
    fields: &mut Option<Vec<(String, Shape)>>,
    val: &V,
) -> Result<(), WriterError> {
    let is_first = fields.is_none();
    let fields = fields.get_or_insert_with(Vec::new);
    let mut count = 0;
    for (name, part) in val.unwrap_record() {
        count += 1;
        if is_first {
            fields.push((name.into_owned(), Shape::of(&*part)?));
            continue;
        }
        let field = fields.iter_mut().find(|(own, _)| *own == name);
        field.ok_or(WriterError::NoType)?.1.widen(&*part)?;
    }
    require(fields.len() == count)
}

fn widen_parts<V: WasmValue>(parts: &mut Option<Vec<Shape>>, val: &V) -> Result<(), WriterError> {
    let is_first = parts.is_none();
    let parts = parts.get_or_insert_with(Vec::new);
    let mut count = 0;
    for part in val.unwrap_tuple() {
        if is_first {
            parts.push(Shape::of(&*part)?);
        } else {
            let own = parts.get_mut(count).ok_or(WriterError::NoType)?;
            own.widen(&*part)?;
        }
        count += 1;
    }
    require(parts.len() == count)
}

fn require(fits: bool) -> Result<(), WriterError> {
    fits.then_some(()).ok_or(WriterError::NoType)
}
