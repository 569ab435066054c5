//! Whether a text is well-formed XML: one element, all closed in their order, letters as they may be.

/// What is wrong with it, if anything; else how many elements of each name there are.
pub fn elements(text: &str) -> Result<Vec<(String, usize)>, String> {
    let (mut open, mut seen): (Vec<&str>, Vec<(String, usize)>) = (Vec::new(), Vec::new());
    let (mut rest, mut ended) = (text, false);
    while let Some(at) = rest.find('<') {
        content(&rest[..at], !open.is_empty())?;
        let end = rest[at..].find('>').ok_or("a tag without an end")? + at;
        let tag = &rest[at + 1..end];
        rest = &rest[end + 1..];
        if let Some(name) = tag.strip_prefix('/') {
            if open.pop() != Some(name) {
                return Err(format!("</{name}> closes nothing"));
            }
            ended = open.is_empty();
            continue;
        }
        if ended {
            return Err("a second element".to_owned());
        }
        let (tag, closed) = match tag.strip_suffix('/') {
            Some(tag) => (tag, true),
            None => (tag, false),
        };
        let (name, attributes) = tag.split_once(' ').unwrap_or((tag, ""));
        is_name(name)?;
        self::attributes(attributes)?;
        match seen.iter_mut().find(|(known, _)| known == name) {
            Some((_, times)) => *times += 1,
            None => seen.push((name.to_owned(), 1)),
        }
        if closed {
            ended = open.is_empty();
        } else {
            open.push(name);
        }
    }
    content(rest, false)?;
    match open.last() {
        Some(name) => Err(format!("<{name}> is not closed")),
        None if ended => Ok(seen),
        None => Err("no element".to_owned()),
    }
}

fn is_name(name: &str) -> Result<(), String> {
    let letters = name
        .chars()
        .all(|c| c.is_ascii_alphanumeric() || matches!(c, '-' | ':' | '_'));
    if letters && name.starts_with(|c: char| c.is_ascii_alphabetic()) {
        return Ok(());
    }
    Err(format!("{name:?} is no name"))
}

// Text between tags, which stands inside an element.
fn content(text: &str, inside: bool) -> Result<(), String> {
    if !inside && !text.trim().is_empty() {
        return Err(format!("{text:?} outside of all"));
    }
    letters(text)
}

// No stray letters, and '&' only as one of five names.
fn letters(text: &str) -> Result<(), String> {
    if text.contains(|c: char| c.is_control() && !matches!(c, '\n' | '\t')) {
        return Err(format!("a control letter in {text:?}"));
    }
    for part in text.split('&').skip(1) {
        let name = part.split_once(';').map(|(name, _)| name);
        if !matches!(name, Some("amp" | "lt" | "gt" | "quot" | "apos")) {
            return Err(format!("& by itself in {text:?}"));
        }
    }
    Ok(())
}

// name="value", each name once.
fn attributes(text: &str) -> Result<(), String> {
    let mut names = Vec::new();
    let mut rest = text.trim();
    while !rest.is_empty() {
        let (name, more) = rest
            .split_once("=\"")
            .ok_or(format!("{rest:?} is no attribute"))?;
        let (value, more) = more.split_once('"').ok_or("a value without an end")?;
        is_name(name)?;
        letters(value)?;
        if value.contains('<') || names.contains(&name) {
            return Err(format!("{name} again, or with <"));
        }
        names.push(name);
        rest = more.trim_start();
    }
    Ok(())
}

#[test]
fn only_xml_is_taken() {
    let good = "<a x=\"1\"><b/>text &amp; more<b y=\"2\" z=\"3\">3</b></a>\n";
    assert_eq!(
        elements(good),
        Ok(vec![("a".to_owned(), 1), ("b".to_owned(), 2)])
    );
    for wrong in [
        "",
        "text",
        "<a>",
        "<a></b>",
        "<a/><b/>",
        "<a x=1/>",
        "<a x=\"1\" x=\"2\"/>",
        "<a>&</a>",
        "<a>&x;</a>",
        "<a/>text",
        "<a b=\"<\"/>",
        "<1/>",
        "<a>\u{7}</a>",
    ] {
        assert!(elements(wrong).is_err(), "{wrong}");
    }
}
