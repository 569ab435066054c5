//! JSON, written.
use std::fmt::Write;

/// A text as JSON writes it.
#[must_use]
pub fn text(text: &str) -> String {
    let mut out = String::from("\"");
    for c in text.chars() {
        match c {
            '"' => out.push_str("\\\""),
            '\\' => out.push_str("\\\\"),
            '\n' => out.push_str("\\n"),
            '\t' => out.push_str("\\t"),
            c if c.is_control() => {
                let _ = write!(out, "\\u{:04x}", u32::from(c));
            }
            c => out.push(c),
        }
    }
    out.push('"');
    out
}

/// An object of these members, whose values are JSON already.
#[must_use]
pub fn object<const N: usize>(members: [(&str, String); N]) -> String {
    let members = members.map(|(name, value)| format!("{}:{value}", text(name)));
    format!("{{{}}}", members.join(","))
}

/// A list of what is JSON already.
#[must_use]
pub fn list(items: &[String]) -> String {
    format!("[{}]", items.join(","))
}

/// A value, or null.
pub fn or_null<T>(value: Option<T>, json: impl FnOnce(T) -> String) -> String {
    value.map_or_else(|| "null".to_owned(), json)
}

#[cfg(test)]
mod tests {
    use super::*;

    #[test]
    fn what_needs_it_is_escaped() {
        assert_eq!(text("a\"b\\c\n\t\u{1}é"), r#""a\"b\\c\n\t\u0001é""#);
        assert_eq!(
            object([("a", "1".to_owned()), ("b", list(&[]))]),
            r#"{"a":1,"b":[]}"#
        );
    }
}
