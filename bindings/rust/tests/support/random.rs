//! Random types and values, the same of the same seed.
use wave::value::{Type, Value};
use wave::wasm::{WasmType, WasmTypeKind, WasmValue};

const NAMES: [&str; 12] =
    ["a", "b", "c1", "two-words", "HTTP3", "ok", "none", "true", "some", "u8", "item-2", "x-Y"];

const LEAVES: [Type; 11] = [
    Type::BOOL,
    Type::S8,
    Type::S16,
    Type::S32,
    Type::S64,
    Type::U8,
    Type::U16,
    Type::U32,
    Type::U64,
    Type::CHAR,
    Type::STRING,
];

pub struct Random(u64);

impl Random {
    pub fn new(seed: u64) -> Self {
        Random(seed)
    }

    pub fn next(&mut self) -> u64 {
        self.0 = self.0.wrapping_add(0x9e37_79b9_7f4a_7c15);
        let mut mixed = self.0;
        mixed = (mixed ^ (mixed >> 30)).wrapping_mul(0xbf58_476d_1ce4_e5b9);
        mixed = (mixed ^ (mixed >> 27)).wrapping_mul(0x94d0_49bb_1331_11eb);
        mixed ^ (mixed >> 31)
    }

    /// A number below this one, which isn't 0.
    pub fn below(&mut self, bound: usize) -> usize {
        (self.next() % bound as u64) as usize
    }

    fn is(&mut self) -> bool {
        self.below(2) == 1
    }

    /// From one to four distinct names, in any order.
    fn names(&mut self) -> Vec<&'static str> {
        let mut names = NAMES.to_vec();
        let count = 1 + self.below(4);
        let picked = (0..count).map(|_| names.swap_remove(self.below(names.len())));
        picked.collect()
    }

    pub fn leaf(&mut self) -> Type {
        LEAVES[self.below(LEAVES.len())].clone()
    }

    /// A type of at most so many levels.
    pub fn ty(&mut self, levels: usize) -> Type {
        if levels <= 1 || self.below(4) == 0 {
            return self.leaf();
        }
        let levels = levels - 1;
        match self.below(10) {
            0 => Type::list(self.ty(levels)),
            1 => {
                let length = self.below(4) as u32;
                Type::fixed_length_list(self.ty(levels), length)
            }
            2 => {
                let fields: Vec<_> =
                    self.names().into_iter().map(|name| (name, self.ty(levels))).collect();
                Type::record(fields).unwrap()
            }
            3 => {
                let types: Vec<_> = (0..1 + self.below(3)).map(|_| self.ty(levels)).collect();
                Type::tuple(types).unwrap()
            }
            4 => {
                let cases: Vec<_> =
                    self.names().into_iter().map(|name| (name, self.payload(levels))).collect();
                Type::variant(cases).unwrap()
            }
            5 => Type::enum_ty(self.names()).unwrap(),
            6 => Type::option(self.ty(levels)),
            7 => {
                let ok = self.payload(levels);
                Type::result(ok, self.payload(levels))
            }
            8 => Type::flags(self.names()).unwrap(),
            _ => {
                let key = self.leaf();
                Type::map(key, self.ty(levels)).unwrap()
            }
        }
    }

    fn payload(&mut self, levels: usize) -> Option<Type> {
        self.is().then(|| self.ty(levels))
    }

    fn char(&mut self) -> char {
        match self.below(6) {
            0 => ['\\', '"', '\'', '\n', '\r', '\t', '\0', '\u{200b}', '\u{10ffff}'][self.below(9)],
            1 => char::from_u32(self.below(0x11_0000) as u32).unwrap_or('ä'),
            _ => char::from(b' ' + self.below(95) as u8),
        }
    }

    fn text(&mut self) -> String {
        (0..self.below(8)).map(|_| self.char()).collect()
    }

    /// A number whose size varies.
    fn bits(&mut self) -> u64 {
        match self.below(3) {
            0 => self.below(3) as u64,
            1 => (self.below(3) as u64).wrapping_neg(),
            _ => self.next() >> self.below(64),
        }
    }

    /// A value of the type.
    pub fn value(&mut self, ty: &Type) -> Value {
        match ty.kind() {
            WasmTypeKind::Bool => Value::make_bool(self.is()),
            WasmTypeKind::S8 => Value::make_s8(self.bits() as i8),
            WasmTypeKind::S16 => Value::make_s16(self.bits() as i16),
            WasmTypeKind::S32 => Value::make_s32(self.bits() as i32),
            WasmTypeKind::S64 => Value::make_s64(self.bits() as i64),
            WasmTypeKind::U8 => Value::make_u8(self.bits() as u8),
            WasmTypeKind::U16 => Value::make_u16(self.bits() as u16),
            WasmTypeKind::U32 => Value::make_u32(self.bits() as u32),
            WasmTypeKind::U64 => Value::make_u64(self.bits()),
            WasmTypeKind::Char => Value::make_char(self.char()),
            WasmTypeKind::String => Value::make_string(self.text().into()),
            WasmTypeKind::List => {
                let element = ty.list_element_type().unwrap();
                let vals: Vec<_> = (0..self.below(5)).map(|_| self.value(&element)).collect();
                Value::make_list(ty, vals).unwrap()
            }
            WasmTypeKind::FixedLengthList => {
                let element = ty.list_element_type().unwrap();
                let vals: Vec<_> =
                    (0..ty.list_length().unwrap()).map(|_| self.value(&element)).collect();
                Value::make_list(ty, vals).unwrap()
            }
            WasmTypeKind::Record => {
                let fields: Vec<_> = ty.record_fields().collect();
                let vals: Vec<_> =
                    fields.iter().map(|(name, ty)| (name.as_ref(), self.value(ty))).collect();
                Value::make_record(ty, vals).unwrap()
            }
            WasmTypeKind::Tuple => {
                let vals: Vec<_> = ty.tuple_element_types().map(|ty| self.value(&ty)).collect();
                Value::make_tuple(ty, vals).unwrap()
            }
            WasmTypeKind::Variant => {
                let cases: Vec<_> = ty.variant_cases().collect();
                let (name, payload) = &cases[self.below(cases.len())];
                let val = payload.as_ref().map(|ty| self.value(ty));
                Value::make_variant(ty, name, val).unwrap()
            }
            WasmTypeKind::Enum => {
                let cases: Vec<_> = ty.enum_cases().collect();
                Value::make_enum(ty, &cases[self.below(cases.len())]).unwrap()
            }
            WasmTypeKind::Option => {
                let some = ty.option_some_type().unwrap();
                let val = self.is().then(|| self.value(&some));
                Value::make_option(ty, val).unwrap()
            }
            WasmTypeKind::Result => {
                let (ok, err) = ty.result_types().unwrap();
                let val = if self.is() {
                    Ok(ok.map(|ty| self.value(&ty)))
                } else {
                    Err(err.map(|ty| self.value(&ty)))
                };
                Value::make_result(ty, val).unwrap()
            }
            WasmTypeKind::Flags => {
                let names: Vec<_> = ty.flags_names().filter(|_| self.is()).collect();
                Value::make_flags(ty, names.iter().map(AsRef::as_ref)).unwrap()
            }
            WasmTypeKind::Map => {
                let (key, val) = ty.map_key_value_types().unwrap();
                let mut entries: Vec<(Value, Value)> = Vec::new();
                for _ in 0..self.below(4) {
                    let entry = (self.value(&key), self.value(&val));
                    if entries.iter().all(|(key, _)| *key != entry.0) {
                        entries.push(entry);
                    }
                }
                Value::make_map(ty, entries).unwrap()
            }
            kind => panic!("a {kind}"),
        }
    }
}
