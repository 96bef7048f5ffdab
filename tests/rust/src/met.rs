//! Which fault of type is met first where a text is read at a type without its tree: that of a part where the part ends, a field that the
//! type hasn't at its key, a count and what is missing at the end of the whole. What each fault is called is the crate's.
use std::collections::BTreeSet;
use wasm_wave::ast::{Node, NodeType};
use wasm_wave::value::{Type, Value};
use wasm_wave::wasm::{DisplayType, WasmType, WasmTypeKind, WasmValueError};

/// The text of the refusal, where there is a fault.
type Faults = Result<(), String>;

pub struct Source<'a>(pub &'a str);

fn told(words: &str, node: &Node) -> Faults {
    Err(format!("{words} at {:?}", node.span()))
}

fn caused(cause: WasmValueError, node: &Node) -> Faults {
    told(&format!("error converting Wasm value: {cause}"), node)
}

fn is_flat(ty: &Type) -> bool {
    !matches!(ty.kind(), WasmTypeKind::Option | WasmTypeKind::Result)
}

impl Source<'_> {
    fn slice(&self, node: &Node) -> &str {
        &self.0[node.span()]
    }

    /// What the crate says of a node whose type has no types of parts.
    fn of_leaf(&self, node: &Node, ty: &Type) -> Faults {
        node.to_wasm_value::<Value>(ty, self.0).map(drop).map_err(|it| it.to_string())
    }

    pub fn of(&self, node: &Node, ty: &Type) -> Faults {
        match ty.kind() {
            WasmTypeKind::List => self.of_list(node, ty),
            WasmTypeKind::Tuple => self.of_tuple(node, ty),
            WasmTypeKind::Record => self.of_record(node, ty),
            WasmTypeKind::Variant => self.of_variant(node, ty),
            WasmTypeKind::Option => self.of_option(node, ty),
            WasmTypeKind::Result => self.of_result(node, ty),
            WasmTypeKind::Map => self.of_map(node, ty),
            _ => self.of_leaf(node, ty),
        }
    }

    fn of_list(&self, node: &Node, ty: &Type) -> Faults {
        let part = ty.list_element_type().unwrap();
        node.as_list().map_err(|it| it.to_string())?.try_for_each(|it| self.of(it, &part))
    }

    fn of_tuple(&self, node: &Node, ty: &Type) -> Faults {
        let types: Vec<Type> = ty.tuple_element_types().collect();
        let items = node.as_tuple().map_err(|it| it.to_string())?;
        let got = items.len();
        items.zip(&types).try_for_each(|(it, ty)| self.of(it, ty))?;
        if got != types.len() {
            return caused(WasmValueError::WrongNumberOfTupleValues { want: types.len(), got }, node);
        }
        Ok(())
    }

    fn of_record(&self, node: &Node, ty: &Type) -> Faults {
        if node.ty() != NodeType::TupleSet {
            return told("invalid value type", node);
        }
        let fields: Vec<_> = ty.record_fields().collect();
        let mut seen = BTreeSet::new();
        for (key, value) in node.as_map().unwrap() {
            let Ok(name) = key.as_enum(self.0) else {
                return told("invalid value type: expected a record field label", key);
            };
            if !seen.insert(name) {
                return told(&format!("duplicate field: {name:?}"), key);
            }
            let Some((_, ty)) = fields.iter().find(|(it, _)| it == name) else {
                return told("invalid value", node);
            };
            self.of(value, ty)?;
        }
        let missing = fields.iter().find(|(it, ty)| ty.kind() != WasmTypeKind::Option && !seen.contains(it.as_ref()));
        missing.map_or(Ok(()), |(it, _)| caused(WasmValueError::MissingField(it.to_string()), node))
    }

    fn of_variant(&self, node: &Node, ty: &Type) -> Faults {
        let (name, payload) = node.as_variant(self.0).map_err(|it| it.to_string())?;
        let Some((_, due)) = ty.variant_cases().find(|(it, _)| it == name) else {
            return caused(WasmValueError::UnknownCase(name.into()), node);
        };
        self.of_payload(node, name, due, payload)
    }

    fn of_payload(&self, node: &Node, name: &str, due: Option<Type>, payload: Option<&Node>) -> Faults {
        match (due, payload) {
            (Some(ty), Some(payload)) => self.of(payload, &ty),
            (None, None) => Ok(()),
            (Some(_), None) => caused(WasmValueError::MissingPayload(name.into()), node),
            (None, Some(_)) => caused(WasmValueError::UnexpectedPayload(name.into()), node),
        }
    }

    fn of_option(&self, node: &Node, ty: &Type) -> Faults {
        let part = ty.option_some_type().unwrap();
        match node.as_option() {
            Ok(payload) => self.of_payload(node, "some", payload.map(|_| part), payload),
            Err(_) if is_flat(&part) => self.of(node, &part),
            Err(_) => told("invalid value type", node),
        }
    }

    fn of_result(&self, node: &Node, ty: &Type) -> Faults {
        let (ok, err) = ty.result_types().unwrap();
        match (node.as_result(), ok) {
            (Ok(Ok(payload)), ok) => self.of_payload(node, "ok", ok, payload),
            (Ok(Err(payload)), _) => self.of_payload(node, "err", err, payload),
            (Err(_), Some(ok)) if is_flat(&ok) => self.of(node, &ok),
            _ => told("invalid value type", node),
        }
    }

    fn of_map(&self, node: &Node, ty: &Type) -> Faults {
        let (key_type, part) = ty.map_key_value_types().unwrap();
        node.as_map().map_err(|it| it.to_string())?.try_for_each(|(key, value)| {
            self.of_key(key, &key_type)?;
            self.of(value, &part)
        })
    }

    fn of_key(&self, key: &Node, ty: &Type) -> Faults {
        match (key.ty(), ty.kind(), self.slice(key)) {
            (NodeType::Label, WasmTypeKind::Bool, "true" | "false") => Ok(()),
            (NodeType::Label, ..) => told(&format!("invalid value type: expected a {} key, found a label", DisplayType(ty)), key),
            _ => self.of_leaf(key, ty),
        }
    }
}
