//! A small reader of JSON, strict in what the tool may write: one value, and nothing behind it but a line end.

#[derive(Debug, Clone, PartialEq)]
pub enum Json {
    Null,
    Bool(bool),
    /// As it stands there.
    Number(String),
    Text(String),
    Array(Vec<Json>),
    Object(Vec<(String, Json)>),
}

impl Json {
    pub fn read(text: &str) -> Json {
        let mut rest = text;
        let value = value(&mut rest);
        assert_eq!(rest, "\n");
        value
    }

    pub fn at(&self, key: &str) -> &Json {
        let Json::Object(members) = self else { panic!("no object: {self:?}") };
        let found: Vec<_> = members.iter().filter(|(k, _)| k == key).collect();
        assert_eq!(found.len(), 1, "{key} in {self:?}");
        &found[0].1
    }

    pub fn values(&self) -> Vec<&Json> {
        match self {
            Json::Array(values) => values.iter().collect(),
            Json::Object(members) => members.iter().map(|(_, v)| v).collect(),
            _ => panic!("no values: {self:?}"),
        }
    }

    pub fn text(&self) -> &str {
        let Json::Text(text) = self else { panic!("no text: {self:?}") };
        text
    }

    pub fn number(&self) -> &str {
        let Json::Number(number) = self else { panic!("no number: {self:?}") };
        number
    }
}

fn taken(rest: &mut &str, token: &str) -> bool {
    *rest = rest.trim_start_matches(' ');
    match rest.strip_prefix(token) {
        Some(behind) => {
            *rest = behind;
            true
        }
        None => false,
    }
}

fn value(rest: &mut &str) -> Json {
    if taken(rest, "{") {
        return Json::Object(several(rest, "}", |rest| {
            assert!(taken(rest, "\""));
            let key = text(rest);
            assert!(taken(rest, ":"));
            (key, value(rest))
        }));
    }
    match () {
        _ if taken(rest, "[") => Json::Array(several(rest, "]", value)),
        _ if taken(rest, "\"") => Json::Text(text(rest)),
        _ if taken(rest, "null") => Json::Null,
        _ if taken(rest, "true") => Json::Bool(true),
        _ if taken(rest, "false") => Json::Bool(false),
        _ => Json::Number(number(rest)),
    }
}

fn several<T>(rest: &mut &str, end: &str, one: impl Fn(&mut &str) -> T) -> Vec<T> {
    let mut out = Vec::new();
    while !taken(rest, end) {
        assert!(out.is_empty() || taken(rest, ","), "{rest}");
        out.push(one(rest));
    }
    out
}

fn number(rest: &mut &str) -> String {
    let end = rest.find(|c: char| !"+-.eE0123456789".contains(c)).unwrap_or(rest.len());
    let (number, behind) = rest.split_at(end);
    assert!(number.parse::<f64>().is_ok() && number.starts_with(|c: char| c.is_ascii_digit() || c == '-'), "{number}");
    *rest = behind;
    number.to_string()
}

// Behind the quotation mark.
fn text(rest: &mut &str) -> String {
    let mut out = String::new();
    let mut chars = rest.chars();
    loop {
        match chars.next().expect("an end") {
            '"' => break,
            '\\' => out.push(escaped(&mut chars)),
            c => {
                assert!(c >= ' ', "a control character");
                out.push(c);
            }
        }
    }
    *rest = chars.as_str();
    out
}

fn escaped(chars: &mut std::str::Chars) -> char {
    match chars.next().expect("an escape") {
        'u' => {
            let digits: String = chars.by_ref().take(4).collect();
            char::from_u32(u32::from_str_radix(&digits, 16).expect("four digits")).expect("a character")
        }
        c @ ('"' | '\\') => c,
        c => panic!("an escape of {c}"),
    }
}
