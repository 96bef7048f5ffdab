//! What several tests stand on.
#![allow(dead_code, missing_docs)]

pub mod foreign;
pub mod random;

use wave::value::Type;

/// A type of each kind, with values of each form.
pub fn types() -> Vec<Type> {
    let option = Type::option(Type::U8);
    let record = Type::record([("name", Type::STRING), ("size", option.clone())]).unwrap();
    let variant = Type::variant([
        ("none", None),
        ("two-words", Some(Type::S16)),
        ("list", Some(Type::list(Type::CHAR))),
    ])
    .unwrap();
    let flags = Type::flags(["read", "write", "exec"]).unwrap();
    let enumeration = Type::enum_ty(["ok", "not-found", "HTTP2"]).unwrap();
    let map = Type::map(Type::STRING, Type::list(Type::S32)).unwrap();
    let mut types = vec![
        Type::BOOL,
        Type::S8,
        Type::S16,
        Type::S32,
        Type::S64,
        Type::U8,
        Type::U16,
        Type::U32,
        Type::U64,
        Type::CHAR,
        Type::STRING,
        Type::list(Type::U8),
        Type::list(Type::list(Type::STRING)),
        Type::fixed_length_list(Type::U16, 3),
        Type::fixed_length_list(option.clone(), 0),
        Type::tuple([Type::BOOL, variant.clone(), Type::U64]).unwrap(),
        Type::option(option.clone()),
        Type::result(None, None),
        Type::result(Some(Type::U8), None),
        Type::result(None, Some(Type::STRING)),
        Type::result(Some(option), Some(Type::result(Some(Type::S8), None))),
        Type::map(Type::BOOL, Type::U8).unwrap(),
        Type::map(Type::S64, map.clone()).unwrap(),
    ];
    types.extend([record, variant, flags, enumeration, map]);
    let all = types
        .iter()
        .enumerate()
        .map(|(place, ty)| (format!("f{place}"), ty.clone()))
        .collect::<Vec<_>>();
    types.push(Type::record(all).unwrap());
    types.push(Type::tuple(types.clone()).unwrap());
    types
}
