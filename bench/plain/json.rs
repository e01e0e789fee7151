//! A small reader of JSON values.

/// A JSON value.
pub enum Value {
    /// A number within 64 bits with a sign that is written without a point and without an exponent.
    Whole(i64),
    Text(String),
    List(Vec<Value>),
    Object(Vec<(String, Value)>),
    /// Any other number, a truth value, or null.
    Other,
}

impl Value {
    pub fn whole(&self) -> Option<i64> {
        if let Value::Whole(number) = self {
            Some(*number)
        } else {
            None
        }
    }

    pub fn text(&self) -> Option<&str> {
        if let Value::Text(text) = self {
            Some(text)
        } else {
            None
        }
    }

    pub fn list(&self) -> Option<&[Value]> {
        if let Value::List(items) = self {
            Some(items)
        } else {
            None
        }
    }

    /// The member of an object. Of a name that stands twice the last value counts.
    pub fn get(&self, name: &str) -> Option<&Value> {
        let Value::Object(members) = self else {
            return None;
        };
        members
            .iter()
            .rev()
            .find(|member| member.0 == name)
            .map(|member| &member.1)
    }

    /// Whether it is an object with exactly these members.
    pub fn has_exactly(&self, names: &[&str]) -> bool {
        let Value::Object(members) = self else {
            return false;
        };
        names.iter().all(|name| self.get(name).is_some())
            && members
                .iter()
                .all(|member| names.contains(&member.0.as_str()))
    }
}

/// The value that a text is.
pub fn parse(text: &str) -> Option<Value> {
    let mut reader = Reader {
        bytes: text.as_bytes(),
        at: 0,
    };
    let value = reader.value(0)?;
    reader.skip_blanks();
    (reader.at == reader.bytes.len()).then_some(value)
}

const DEEPEST: usize = 127;

struct Reader<'a> {
    bytes: &'a [u8],
    at: usize,
}

impl Reader<'_> {
    fn peek(&self) -> Option<u8> {
        self.bytes.get(self.at).copied()
    }

    /// Takes the byte if it is the next one.
    fn take(&mut self, byte: u8) -> bool {
        let is_next = self.peek() == Some(byte);
        self.at += is_next as usize;
        is_next
    }

    fn take_word(&mut self, word: &str) -> bool {
        let is_next = self.bytes[self.at..].starts_with(word.as_bytes());
        self.at += if is_next { word.len() } else { 0 };
        is_next
    }

    fn skip_blanks(&mut self) {
        while matches!(self.peek(), Some(b' ' | b'\n' | b'\r' | b'\t')) {
            self.at += 1;
        }
    }

    fn value(&mut self, depth: usize) -> Option<Value> {
        self.skip_blanks();
        match self.peek()? {
            b'"' => self.text().map(Value::Text),
            b'[' if depth < DEEPEST => self.list(depth),
            b'{' if depth < DEEPEST => self.object(depth),
            b'-' | b'0'..=b'9' => self.number(),
            _ => ["null", "true", "false"]
                .iter()
                .any(|word| self.take_word(word))
                .then_some(Value::Other),
        }
    }

    fn list(&mut self, depth: usize) -> Option<Value> {
        self.at += 1;
        let mut items = Vec::new();
        self.skip_blanks();
        if self.take(b']') {
            return Some(Value::List(items));
        }
        loop {
            items.push(self.value(depth + 1)?);
            self.skip_blanks();
            if self.take(b']') {
                return Some(Value::List(items));
            }
            self.take(b',').then_some(())?;
        }
    }

    fn object(&mut self, depth: usize) -> Option<Value> {
        self.at += 1;
        let mut members = Vec::new();
        self.skip_blanks();
        if self.take(b'}') {
            return Some(Value::Object(members));
        }
        loop {
            self.skip_blanks();
            let name = self.text()?;
            self.skip_blanks();
            self.take(b':').then_some(())?;
            members.push((name, self.value(depth + 1)?));
            self.skip_blanks();
            if self.take(b'}') {
                return Some(Value::Object(members));
            }
            self.take(b',').then_some(())?;
        }
    }

    fn skip_digits(&mut self) -> usize {
        let begin = self.at;
        while matches!(self.peek(), Some(b'0'..=b'9')) {
            self.at += 1;
        }
        self.at - begin
    }

    fn number(&mut self) -> Option<Value> {
        let begin = self.at;
        self.take(b'-');
        let zero_first = self.peek() == Some(b'0');
        let digits = self.skip_digits();
        if digits == 0 || zero_first && digits > 1 {
            return None;
        }
        let end = self.at;
        if self.take(b'.') && self.skip_digits() == 0 {
            return None;
        }
        if self.take(b'e') || self.take(b'E') {
            let _ = self.take(b'+') || self.take(b'-');
            if self.skip_digits() == 0 {
                return None;
            }
        }
        let text = std::str::from_utf8(&self.bytes[begin..self.at]).ok()?;
        match text.parse() {
            Ok(number) if self.at == end && text != "-0" => Some(Value::Whole(number)),
            _ => Some(Value::Other),
        }
    }

    fn text(&mut self) -> Option<String> {
        self.take(b'"').then_some(())?;
        let mut bytes = Vec::new();
        loop {
            let begin = self.at;
            while !matches!(self.peek()?, b'"' | b'\\' | 0..=31) {
                self.at += 1;
            }
            bytes.extend_from_slice(&self.bytes[begin..self.at]);
            if self.take(b'"') {
                return String::from_utf8(bytes).ok();
            }
            self.take(b'\\').then_some(())?;
            let letter = self.escaped()?;
            bytes.extend_from_slice(letter.encode_utf8(&mut [0; 4]).as_bytes());
        }
    }

    /// The letter that stands behind a backslash.
    fn escaped(&mut self) -> Option<char> {
        let byte = self.peek()?;
        self.at += 1;
        match byte {
            b'"' | b'\\' | b'/' => Some(byte as char),
            b'b' => Some('\u{8}'),
            b'f' => Some('\u{c}'),
            b'n' => Some('\n'),
            b'r' => Some('\r'),
            b't' => Some('\t'),
            b'u' => {
                let first = self.four_digits()?;
                if !(0xd800..0xdc00).contains(&first) {
                    return char::from_u32(first);
                }
                let second = if self.take_word("\\u") {
                    self.four_digits()?
                } else {
                    0
                };
                if !(0xdc00..0xe000).contains(&second) {
                    return None;
                }
                char::from_u32(0x10000 + ((first - 0xd800) << 10) + (second - 0xdc00))
            }
            _ => None,
        }
    }

    fn four_digits(&mut self) -> Option<u32> {
        let mut number = 0;
        for _ in 0..4 {
            number = 16 * number + (self.peek()? as char).to_digit(16)?;
            self.at += 1;
        }
        Some(number)
    }
}
