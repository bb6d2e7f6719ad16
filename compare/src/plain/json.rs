//! Document 01 "Comments": a reader of JSON by RFC 8259, and what a comment says.

/// A value, as far as a comment asks for it.
pub enum Value {
    Text(Vec<u8>),
    Object(Members),
    Other,
}

/// Names and values in the order of the text.
pub type Members = Vec<(Vec<u8>, Value)>;

/// "127 nested levels are read, 128 are not."
pub const LEVELS: usize = 127;

pub const RESIDUAL: &[u8] = b"com.android.tools.r8.residualsignature";

/// The signature that the JSON of a comment gives.
pub fn signature(json: &[u8]) -> Option<Vec<u8>> {
    let members = object(json)?;
    match (last(&members, b"id"), last(&members, b"signature")) {
        (Some(Value::Text(id)), Some(Value::Text(signature))) if id == RESIDUAL => {
            Some(signature.clone())
        }
        _ => None,
    }
}

/// The members of the object that the text is.
pub fn object(json: &[u8]) -> Option<Members> {
    let mut reader = Reader { rest: json };
    let value = reader.value(LEVELS)?;
    reader.space();
    match value {
        Value::Object(members) if reader.rest.is_empty() => Some(members),
        _ => None,
    }
}

/// "Repeated keys: the last counts, compared after escapes."
fn last<'a>(members: &'a Members, name: &[u8]) -> Option<&'a Value> {
    let same = members.iter().rev().find(|(known, _)| known == name);
    same.map(|(_, value)| value)
}

/// What is still to be read. Each of its functions answers `None` where the text is not as the grammar has it.
pub struct Reader<'a> {
    pub rest: &'a [u8],
}

impl Reader<'_> {
    fn peek(&self) -> Option<u8> {
        self.rest.first().copied()
    }

    fn take(&mut self) -> Option<u8> {
        let (first, rest) = self.rest.split_first()?;
        self.rest = rest;
        Some(*first)
    }

    pub fn exactly(&mut self, text: &[u8]) -> Option<()> {
        self.rest = self.rest.strip_prefix(text)?;
        Some(())
    }

    /// ws = %x20 / %x09 / %x0A / %x0D
    pub fn space(&mut self) {
        while let Some(0x20 | 0x09 | 0x0A | 0x0D) = self.peek() {
            self.take();
        }
    }

    /// A value, in which so many levels may nest.
    pub fn value(&mut self, levels: usize) -> Option<Value> {
        match self.peek()? {
            b'{' => Some(Value::Object(self.object(levels.checked_sub(1)?)?)),
            b'[' => self.array(levels.checked_sub(1)?),
            b'"' => Some(Value::Text(self.string()?)),
            b't' => self.exactly(b"true").map(|()| Value::Other),
            b'f' => self.exactly(b"false").map(|()| Value::Other),
            b'n' => self.exactly(b"null").map(|()| Value::Other),
            _ => self.number().map(|()| Value::Other),
        }
    }

    fn object(&mut self, levels: usize) -> Option<Members> {
        let mut members = Vec::new();
        self.exactly(b"{")?;
        self.space();
        if self.exactly(b"}").is_some() {
            return Some(members);
        }
        loop {
            self.space();
            let name = self.string()?;
            self.space();
            self.exactly(b":")?;
            self.space();
            members.push((name, self.value(levels)?));
            self.space();
            match self.take()? {
                b',' => {}
                b'}' => return Some(members),
                _ => return None,
            }
        }
    }

    fn array(&mut self, levels: usize) -> Option<Value> {
        self.exactly(b"[")?;
        self.space();
        if self.exactly(b"]").is_some() {
            return Some(Value::Other);
        }
        loop {
            self.space();
            self.value(levels)?;
            self.space();
            match self.take()? {
                b',' => {}
                b']' => return Some(Value::Other),
                _ => return None,
            }
        }
    }

    /// How many digits stand here; they are read over.
    fn digits(&mut self) -> usize {
        let count = self.rest.iter().take_while(|byte| byte.is_ascii_digit());
        let count = count.count();
        self.rest = &self.rest[count..];
        count
    }

    /// number = [ minus ] int [ frac ] [ exp ]
    fn number(&mut self) -> Option<()> {
        let _ = self.exactly(b"-");
        // int = zero / ( digit1-9 *DIGIT )
        if self.exactly(b"0").is_none() && self.digits() == 0 {
            return None;
        }
        if self.exactly(b".").is_some() && self.digits() == 0 {
            return None;
        }
        if let Some(b'e' | b'E') = self.peek() {
            self.take();
            if let Some(b'+' | b'-') = self.peek() {
                self.take();
            }
            if self.digits() == 0 {
                return None;
            }
        }
        Some(())
    }

    /// The bytes that a string stands for.
    pub fn string(&mut self) -> Option<Vec<u8>> {
        self.exactly(b"\"")?;
        self.characters()
    }

    /// The same from the string's first character on.
    pub fn characters(&mut self) -> Option<Vec<u8>> {
        let mut bytes = Vec::new();
        loop {
            match self.take()? {
                b'"' => return Some(bytes),
                b'\\' => self.escape(&mut bytes)?,
                0x00..=0x1F => return None,
                plain => bytes.push(plain),
            }
        }
    }

    /// What stands after a reverse solidus.
    fn escape(&mut self, bytes: &mut Vec<u8>) -> Option<()> {
        let short = match self.take()? {
            b'u' => {
                let code = self.escaped_code()?;
                encode(code, bytes);
                return Some(());
            }
            mark @ (b'"' | b'\\' | b'/') => mark,
            b'b' => 0x08,
            b'f' => 0x0C,
            b'n' => 0x0A,
            b'r' => 0x0D,
            b't' => 0x09,
            _ => return None,
        };
        bytes.push(short);
        Some(())
    }

    /// "A lone surrogate escape makes it unreadable."
    fn escaped_code(&mut self) -> Option<u32> {
        match self.four_digits()? {
            high @ 0xD800..=0xDBFF => {
                self.exactly(b"\\u")?;
                match self.four_digits()? {
                    low @ 0xDC00..=0xDFFF => {
                        Some(0x1_0000 + ((high - 0xD800) << 10) + low - 0xDC00)
                    }
                    _ => None,
                }
            }
            0xDC00..=0xDFFF => None,
            code => Some(code),
        }
    }

    fn four_digits(&mut self) -> Option<u32> {
        let mut number = 0;
        for _ in 0..4 {
            let digit = match self.take()? {
                digit @ b'0'..=b'9' => digit - b'0',
                digit @ b'a'..=b'f' => digit - b'a' + 10,
                digit @ b'A'..=b'F' => digit - b'A' + 10,
                _ => return None,
            };
            number = number * 16 + u32::from(digit);
        }
        Some(number)
    }
}

/// RFC 3629, section 3: the bytes of a code point.
fn encode(code: u32, bytes: &mut Vec<u8>) {
    let tail = |shift: u32| 0x80 | (code >> shift & 0x3F) as u8;
    match code {
        0..=0x7F => bytes.push(code as u8),
        0x80..=0x7FF => bytes.extend([0xC0 | (code >> 6) as u8, tail(0)]),
        0x800..=0xFFFF => bytes.extend([0xE0 | (code >> 12) as u8, tail(6), tail(0)]),
        _ => bytes.extend([0xF0 | (code >> 18) as u8, tail(12), tail(6), tail(0)]),
    }
}
