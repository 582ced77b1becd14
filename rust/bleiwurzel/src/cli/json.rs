//! JSON, as far as it is written here.

pub enum Json {
    Null,
    Bool(bool),
    Number(u64),
    Text(String),
    List(Vec<Json>),
    Object(Vec<(&'static str, Json)>),
}

impl From<&str> for Json {
    fn from(text: &str) -> Self {
        Json::Text(text.to_string())
    }
}

impl From<String> for Json {
    fn from(text: String) -> Self {
        Json::Text(text)
    }
}

impl From<u64> for Json {
    fn from(number: u64) -> Self {
        Json::Number(number)
    }
}

impl From<usize> for Json {
    fn from(number: usize) -> Self {
        Json::Number(number as u64)
    }
}

impl From<u32> for Json {
    fn from(number: u32) -> Self {
        Json::Number(u64::from(number))
    }
}

/// A list of texts.
pub fn texts<T: AsRef<str>>(all: &[T]) -> Json {
    Json::List(all.iter().map(|text| Json::from(text.as_ref())).collect())
}

/// An address or another number that one reads in hexadecimal.
pub fn hex(number: u64) -> Json {
    Json::Text(format!("{number:#x}"))
}

impl Json {
    /// One line.
    pub fn line(&self) -> String {
        let mut out = String::new();
        self.write(&mut out);
        out.push('\n');
        out
    }

    fn write(&self, out: &mut String) {
        match self {
            Json::Null => out.push_str("null"),
            Json::Bool(value) => out.push_str(if *value { "true" } else { "false" }),
            Json::Number(number) => out.push_str(&number.to_string()),
            Json::Text(text) => quote(text, out),
            Json::List(items) => {
                out.push('[');
                for (i, item) in items.iter().enumerate() {
                    separate(i, out);
                    item.write(out);
                }
                out.push(']');
            }
            Json::Object(members) => {
                out.push('{');
                for (i, (name, value)) in members.iter().enumerate() {
                    separate(i, out);
                    quote(name, out);
                    out.push_str(": ");
                    value.write(out);
                }
                out.push('}');
            }
        }
    }
}

fn separate(index: usize, out: &mut String) {
    if index > 0 {
        out.push_str(", ");
    }
}

fn quote(text: &str, out: &mut String) {
    out.push('"');
    for character in text.chars() {
        match character {
            '"' => out.push_str("\\\""),
            '\\' => out.push_str("\\\\"),
            '\n' => out.push_str("\\n"),
            c if c.is_control() => out.push_str(&format!("\\u{:04x}", u32::from(c))),
            c => out.push(c),
        }
    }
    out.push('"');
}

#[cfg(test)]
mod tests {
    use super::*;

    #[test]
    fn written() {
        let object = Json::Object(vec![
            ("a", Json::from("x\"\\\n\u{1}\u{9b}é")),
            ("b", Json::List(vec![Json::Null, Json::Bool(true), Json::Number(u64::MAX)])),
            ("c", Json::Object(Vec::new())),
        ]);
        assert_eq!(
            object.line(),
            "{\"a\": \"x\\\"\\\\\\n\\u0001\\u009bé\", \"b\": [null, true, 18446744073709551615], \"c\": {}}\n"
        );
    }
}
