//! A small reader of JSON (RFC 8259), which takes nothing else.

#[derive(Clone, Debug, PartialEq)]
pub enum Json {
    Null,
    Bool(bool),
    Number(f64),
    Text(String),
    List(Vec<Json>),
    Object(Vec<(String, Json)>),
}

impl Json {
    /// The value of a whole text.
    pub fn parse(text: &str) -> Result<Json, String> {
        let mut reader = Reader { text, at: 0 };
        let value = reader.value()?;
        reader.space();
        if reader.at < text.len() {
            return Err(reader.wrong("something behind the end"));
        }
        Ok(value)
    }

    /// The member of a name.
    pub fn get(&self, name: &str) -> &Json {
        let Json::Object(members) = self else {
            panic!("no object: {self:?}");
        };
        let member = members.iter().find(|(member, _)| member == name);
        &member.unwrap_or_else(|| panic!("no {name} in {self:?}")).1
    }

    pub fn list(&self) -> &[Json] {
        match self {
            Json::List(items) => items,
            other => panic!("no list: {other:?}"),
        }
    }

    pub fn number(&self) -> u64 {
        match self {
            Json::Number(number) => *number as u64,
            other => panic!("no number: {other:?}"),
        }
    }

    pub fn text(&self) -> &str {
        match self {
            Json::Text(text) => text,
            other => panic!("no text: {other:?}"),
        }
    }
}

struct Reader<'a> {
    text: &'a str,
    at: usize,
}

impl Reader<'_> {
    fn wrong(&self, what: &str) -> String {
        format!("{what} at {}", self.at)
    }

    fn peek(&self) -> Option<u8> {
        self.text.as_bytes().get(self.at).copied()
    }

    fn space(&mut self) {
        while matches!(self.peek(), Some(b' ' | b'\n' | b'\r' | b'\t')) {
            self.at += 1;
        }
    }

    fn take(&mut self, word: &str) -> Result<(), String> {
        if !self.text[self.at..].starts_with(word) {
            return Err(self.wrong(&format!("no {word}")));
        }
        self.at += word.len();
        Ok(())
    }

    fn value(&mut self) -> Result<Json, String> {
        self.space();
        match self.peek() {
            Some(b'{') => self.object(),
            Some(b'[') => self.list(),
            Some(b'"') => Ok(Json::Text(self.string()?)),
            Some(b't') => self.take("true").map(|()| Json::Bool(true)),
            Some(b'f') => self.take("false").map(|()| Json::Bool(false)),
            Some(b'n') => self.take("null").map(|()| Json::Null),
            _ => self.number(),
        }
    }

    // Items with commas between them, up to the end.
    fn items(
        &mut self,
        [open, close]: [&str; 2],
        mut item: impl FnMut(&mut Self) -> Result<(), String>,
    ) -> Result<(), String> {
        self.take(open)?;
        self.space();
        if self.take(close).is_ok() {
            return Ok(());
        }
        loop {
            item(self)?;
            self.space();
            if self.take(close).is_ok() {
                return Ok(());
            }
            self.take(",")?;
            self.space();
        }
    }

    fn list(&mut self) -> Result<Json, String> {
        let mut list = Vec::new();
        self.items(["[", "]"], |reader| {
            list.push(reader.value()?);
            Ok(())
        })?;
        Ok(Json::List(list))
    }

    fn object(&mut self) -> Result<Json, String> {
        let mut members: Vec<(String, Json)> = Vec::new();
        self.items(["{", "}"], |reader| {
            let name = reader.string()?;
            if members.iter().any(|(member, _)| *member == name) {
                return Err(reader.wrong("the same name again"));
            }
            reader.space();
            reader.take(":")?;
            members.push((name, reader.value()?));
            Ok(())
        })?;
        Ok(Json::Object(members))
    }

    fn string(&mut self) -> Result<String, String> {
        self.take("\"")?;
        let mut text = String::new();
        loop {
            let rest = &self.text[self.at..];
            let c = rest.chars().next().ok_or("a text without an end")?;
            self.at += c.len_utf8();
            match c {
                '"' => return Ok(text),
                '\\' => text.push(self.escaped()?),
                c if c < ' ' => return Err(self.wrong("a control letter")),
                c => text.push(c),
            }
        }
    }

    fn escaped(&mut self) -> Result<char, String> {
        let c = self.peek().ok_or("a text without an end")?;
        self.at += 1;
        Ok(match c {
            b'"' | b'\\' | b'/' => char::from(c),
            b'n' => '\n',
            b't' => '\t',
            b'r' => '\r',
            b'b' => '\u{8}',
            b'f' => '\u{C}',
            b'u' => {
                let digits = self
                    .text
                    .get(self.at..self.at + 4)
                    .ok_or("no four digits")?;
                self.at += 4;
                let code = u32::from_str_radix(digits, 16).map_err(|_| self.wrong("no digits"))?;
                char::from_u32(code).ok_or_else(|| self.wrong("half a pair"))?
            }
            _ => return Err(self.wrong("no escape")),
        })
    }

    fn number(&mut self) -> Result<Json, String> {
        let from = self.at;
        while matches!(
            self.peek(),
            Some(b'0'..=b'9' | b'-' | b'+' | b'.' | b'e' | b'E')
        ) {
            self.at += 1;
        }
        let text = &self.text[from..self.at];
        let digits = text.strip_prefix('-').unwrap_or(text);
        let zero = digits.len() > 1 && digits.starts_with('0') && !digits.starts_with("0.");
        if zero || !digits.starts_with(|c: char| c.is_ascii_digit()) {
            return Err(self.wrong("no number"));
        }
        let number = text.parse().map_err(|_| self.wrong("no number"))?;
        Ok(Json::Number(number))
    }
}

#[test]
fn only_json_is_taken() {
    for good in [
        "0",
        "-1.5e3",
        "\"a\\u00e9\\n\"",
        "[]",
        "[1, {}]",
        " {\"a\":[null,true]} ",
    ] {
        assert!(Json::parse(good).is_ok(), "{good}");
    }
    let wrong = [
        "",
        "01",
        "[1,]",
        "{\"a\":1,}",
        "{a:1}",
        "\"\n\"",
        "[1 2]",
        "nul",
        "1 1",
        "{\"a\":1,\"a\":2}",
        "+1",
        "'a'",
    ];
    for wrong in wrong {
        assert!(Json::parse(wrong).is_err(), "{wrong}");
    }
}
