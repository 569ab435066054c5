//! SVG, written.

/// A text as XML writes it.
pub fn escaped(text: &str) -> String {
    let mut out = String::new();
    for c in text.chars() {
        match c {
            '&' => out.push_str("&amp;"),
            '<' => out.push_str("&lt;"),
            '>' => out.push_str("&gt;"),
            '"' => out.push_str("&quot;"),
            // no control letter may stand in XML
            c if c.is_control() => out.push('\u{FFFD}'),
            c => out.push(c),
        }
    }
    out
}

/// A length in tenths of a pixel, no longer than need be.
pub fn px(length: f64) -> String {
    let text = format!("{length:.1}");
    text.strip_suffix(".0").map_or(text.clone(), str::to_owned)
}

/// A text at a point.
pub fn text(class: &str, x: f64, y: f64, text: &str) -> String {
    let (x, y, text) = (px(x), px(y), escaped(text));
    format!("<text class=\"{class}\" x=\"{x}\" y=\"{y}\">{text}</text>\n")
}

/// A box, with what is said where the pointer rests on it.
pub fn rect(class: &str, x: f64, width: f64, height: f64, title: &str) -> String {
    let (x, width, height) = (px(x), px(width), px(height));
    let title = match title {
        "" => "/>".to_owned(),
        title => format!("><title>{}</title></rect>", escaped(title)),
    };
    format!("<rect class=\"{class}\" x=\"{x}\" width=\"{width}\" height=\"{height}\"{title}\n")
}

#[cfg(test)]
mod tests {
    use super::*;

    #[test]
    fn what_needs_it_is_escaped() {
        assert_eq!(
            escaped("a<b>&\"c\"\u{7}"),
            "a&lt;b&gt;&amp;&quot;c&quot;\u{FFFD}"
        );
        assert_eq!([12.0, 12.34, 0.05].map(px), ["12", "12.3", "0.1"]);
    }
}
