//! As much of JSON as a row of tests/vectors.jsonl has.

#[derive(Debug)]
pub enum Json {
    Nothing,
    Number(u64),
    Text(String),
    Items(Vec<Json>),
    Fields(Vec<(String, Json)>),
}

impl Json {
    /// The field of this name, or nothing.
    pub fn get(&self, name: &str) -> &Json {
        match self {
            Json::Fields(fields) => fields
                .iter()
                .find(|(own, _)| own == name)
                .map_or(&Json::Nothing, |(_, value)| value),
            _ => &Json::Nothing,
        }
    }

    pub fn text(&self) -> &str {
        match self {
            Json::Text(text) => text,
            other => panic!("{other:?} is no text"),
        }
    }

    pub fn number(&self) -> u64 {
        match self {
            Json::Number(number) => *number,
            other => panic!("{other:?} is no number"),
        }
    }

    pub fn items(&self) -> &[Json] {
        match self {
            Json::Items(items) => items,
            other => panic!("{other:?} is no list"),
        }
    }
}

/// What the text means; `None` where it is not of this form.
pub fn parse(text: &str) -> Option<Json> {
    let mut rest = text;
    let value = take(&mut rest)?;
    rest.trim().is_empty().then_some(value)
}

fn is_next(rest: &mut &str, mark: char) -> bool {
    match rest.trim_start().strip_prefix(mark) {
        Some(behind) => {
            *rest = behind;
            true
        }
        None => false,
    }
}

fn take(rest: &mut &str) -> Option<Json> {
    if is_next(rest, '"') {
        return take_text(rest).map(Json::Text);
    }
    if is_next(rest, '[') {
        let mut items = Vec::new();
        while !is_next(rest, ']') {
            items.push(take(rest)?);
            is_next(rest, ',');
        }
        return Some(Json::Items(items));
    }
    if is_next(rest, '{') {
        let mut fields = Vec::new();
        while !is_next(rest, '}') {
            is_next(rest, '"').then_some(())?;
            let name = take_text(rest)?;
            is_next(rest, ':').then_some(())?;
            fields.push((name, take(rest)?));
            is_next(rest, ',');
        }
        return Some(Json::Fields(fields));
    }
    let own = rest.trim_start();
    let length = own.find(|next: char| !next.is_ascii_digit()).unwrap_or(own.len());
    let (number, behind) = own.split_at(length);
    *rest = behind;
    number.parse().ok().map(Json::Number)
}

/// A text, behind its opening quote.
fn take_text(rest: &mut &str) -> Option<String> {
    let mut units = Vec::new();
    let mut chars = rest.chars();
    loop {
        let unit = match chars.next()? {
            '"' => break,
            '\\' => match chars.next()? {
                'n' => '\n' as u16,
                't' => '\t' as u16,
                'r' => '\r' as u16,
                'b' => 8,
                'f' => 12,
                'u' => {
                    let digits: String = chars.by_ref().take(4).collect();
                    u16::from_str_radix(&digits, 16).ok()?
                }
                other => u16::try_from(u32::from(other)).ok()?,
            },
            other => {
                units.extend_from_slice(other.encode_utf16(&mut [0; 2]));
                continue;
            }
        };
        units.push(unit);
    }
    *rest = chars.as_str();
    String::from_utf16(&units).ok()
}
