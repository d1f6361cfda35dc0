//! JSON, written: strings are escaped, and no line feed stands in it.

#[derive(Clone, Debug)]
pub enum Json {
    None,
    Bool(bool),
    Number(u64),
    Text(String),
    List(Vec<Json>),
    Object(Vec<(&'static str, Json)>),
}

impl Json {
    pub fn text(words: impl Into<String>) -> Json {
        Json::Text(words.into())
    }

    pub fn written(&self) -> String {
        let mut out = String::new();
        self.put(&mut out);
        out
    }

    fn put(&self, out: &mut String) {
        match self {
            Json::None => out.push_str("null"),
            Json::Bool(is) => out.push_str(if *is { "true" } else { "false" }),
            Json::Number(number) => out.push_str(&number.to_string()),
            Json::Text(words) => put_text(words, out),
            Json::List(items) => {
                out.push('[');
                for (at, item) in items.iter().enumerate() {
                    out.push_str(if at > 0 { "," } else { "" });
                    item.put(out);
                }
                out.push(']');
            }
            Json::Object(fields) => {
                out.push('{');
                for (at, (name, value)) in fields.iter().enumerate() {
                    out.push_str(if at > 0 { "," } else { "" });
                    put_text(name, out);
                    out.push(':');
                    value.put(out);
                }
                out.push('}');
            }
        }
    }
}

fn put_text(words: &str, out: &mut String) {
    out.push('"');
    for letter in words.chars() {
        match letter {
            '"' => out.push_str("\\\""),
            '\\' => out.push_str("\\\\"),
            // a script may stand behind these, and a line behind the others
            '<' | '>' | '&' | '\u{2028}' | '\u{2029}' => out.push_str(&format!("\\u{:04x}", letter as u32)),
            letter if letter.is_control() => out.push_str(&format!("\\u{:04x}", letter as u32)),
            letter => out.push(letter),
        }
    }
    out.push('"');
}

#[cfg(test)]
mod tests {
    use super::*;

    #[test]
    fn escaped() {
        let words = Json::text("a\"b\\c\n</script>\u{7}\u{2028}é");
        assert_eq!(words.written(), r#""a\"b\\c\u000a\u003c/script\u003e\u0007\u2028é""#);
    }

    #[test]
    fn nested() {
        let all = Json::Object(vec![
            ("a", Json::List(vec![Json::None, Json::Bool(true), Json::Number(7)])),
            ("b", Json::List(vec![])),
        ]);
        assert_eq!(all.written(), r#"{"a":[null,true,7],"b":[]}"#);
    }
}
