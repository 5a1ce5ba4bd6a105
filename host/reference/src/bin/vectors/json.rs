//! A reader for the JSON of the test vectors: objects, arrays, strings, whole
//! numbers, true, false and null.

#[derive(Clone, Debug, PartialEq, Eq)]
pub enum Json {
    Null,
    Bool(bool),
    Number(u64),
    Text(String),
    List(Vec<Json>),
    Object(Vec<(String, Json)>),
}

impl Json {
    pub fn read(text: &str) -> Result<Json, String> {
        let mut reader = Reader {
            bytes: text.as_bytes(),
            at: 0,
        };
        let value = reader.value()?;
        reader.skip_white();
        if reader.at != reader.bytes.len() {
            return Err(format!("more text at byte {}", reader.at));
        }
        Ok(value)
    }

    /// A member of an object.
    pub fn get(&self, key: &str) -> &Json {
        match self {
            Json::Object(members) => match members.iter().find(|(name, _)| name == key) {
                Some((_, value)) => value,
                None => panic!("no member {key}"),
            },
            other => panic!("not an object: {other:?}"),
        }
    }

    pub fn number(&self) -> u64 {
        match self {
            Json::Number(value) => *value,
            other => panic!("not a number: {other:?}"),
        }
    }

    pub fn bool(&self) -> bool {
        match self {
            Json::Bool(value) => *value,
            other => panic!("not a boolean: {other:?}"),
        }
    }

    pub fn text(&self) -> &str {
        match self {
            Json::Text(value) => value,
            other => panic!("not a string: {other:?}"),
        }
    }

    pub fn list(&self) -> &[Json] {
        match self {
            Json::List(values) => values,
            other => panic!("not a list: {other:?}"),
        }
    }

    pub fn numbers(&self) -> Vec<u64> {
        self.list().iter().map(Json::number).collect()
    }

    /// The bytes that a string gives in hexadecimal.
    pub fn bytes(&self) -> Vec<u8> {
        let text = self.text();
        assert!(text.len() % 2 == 0, "odd hexadecimal");
        (0..text.len())
            .step_by(2)
            .map(|at| u8::from_str_radix(&text[at..at + 2], 16).expect("hexadecimal"))
            .collect()
    }
}

/// A string of the bytes in hexadecimal.
pub fn hex(bytes: &[u8]) -> Json {
    Json::Text(bytes.iter().map(|byte| format!("{byte:02x}")).collect())
}

struct Reader<'a> {
    bytes: &'a [u8],
    at: usize,
}

impl Reader<'_> {
    fn skip_white(&mut self) {
        while self
            .bytes
            .get(self.at)
            .is_some_and(|byte| byte.is_ascii_whitespace())
        {
            self.at += 1;
        }
    }

    fn eat(&mut self, word: &str) -> bool {
        self.skip_white();
        let there = self.bytes[self.at..].starts_with(word.as_bytes());
        if there {
            self.at += word.len();
        }
        there
    }

    fn expect(&mut self, word: &str) -> Result<(), String> {
        if self.eat(word) {
            Ok(())
        } else {
            Err(format!("{word} expected at byte {}", self.at))
        }
    }

    fn value(&mut self) -> Result<Json, String> {
        if self.eat("null") {
            return Ok(Json::Null);
        }
        if self.eat("true") {
            return Ok(Json::Bool(true));
        }
        if self.eat("false") {
            return Ok(Json::Bool(false));
        }
        if self.eat("[") {
            let mut values = Vec::new();
            while !self.eat("]") {
                if !values.is_empty() {
                    self.expect(",")?;
                }
                values.push(self.value()?);
            }
            return Ok(Json::List(values));
        }
        if self.eat("{") {
            let mut members = Vec::new();
            while !self.eat("}") {
                if !members.is_empty() {
                    self.expect(",")?;
                }
                let name = self.string()?;
                self.expect(":")?;
                members.push((name, self.value()?));
            }
            return Ok(Json::Object(members));
        }
        match self.bytes.get(self.at) {
            Some(b'"') => Ok(Json::Text(self.string()?)),
            Some(byte) if byte.is_ascii_digit() => self.digits(),
            _ => Err(format!("no value at byte {}", self.at)),
        }
    }

    fn digits(&mut self) -> Result<Json, String> {
        let start = self.at;
        while self.bytes.get(self.at).is_some_and(u8::is_ascii_digit) {
            self.at += 1;
        }
        let digits = std::str::from_utf8(&self.bytes[start..self.at]).expect("digits");
        digits
            .parse()
            .map(Json::Number)
            .map_err(|error| format!("{error} at byte {start}"))
    }

    /// A string without escapes: the vectors have hexadecimal and names only.
    fn string(&mut self) -> Result<String, String> {
        self.expect("\"")?;
        let start = self.at;
        loop {
            match self.bytes.get(self.at) {
                Some(b'"') => break,
                Some(b'\\') => return Err(format!("escape at byte {}", self.at)),
                Some(_) => self.at += 1,
                None => return Err("string without end".to_string()),
            }
        }
        let text =
            std::str::from_utf8(&self.bytes[start..self.at]).map_err(|error| error.to_string())?;
        self.at += 1;
        Ok(text.to_string())
    }
}
