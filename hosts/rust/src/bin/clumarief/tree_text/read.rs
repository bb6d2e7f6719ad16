//! The text of a tree, read.

use std::collections::HashMap;

use clumarief::tree::{Name, Node, Token, Tree};

use super::{Path, LONG};

/// What does not read: its line, its column, and what was wanted there.
pub struct Unread {
    pub line: usize,
    pub column: usize,
    pub wanted: &'static str,
}

/// The rest of a line, and where it starts.
struct Rest<'a> {
    text: &'a str,
    column: usize,
}

type Read<T> = Result<T, (usize, &'static str)>;

impl<'a> Rest<'a> {
    fn fails<T>(&self, wanted: &'static str) -> Read<T> {
        Err((self.column, wanted))
    }

    fn skip(&mut self, bytes: usize) {
        self.column += self.text[..bytes].chars().count();
        self.text = &self.text[bytes..];
    }

    fn takes(&mut self, word: &str) -> bool {
        let there = self.text.starts_with(word);
        if there {
            self.skip(word.len());
        }
        there
    }

    fn expect(&mut self, word: &str, wanted: &'static str) -> Read<()> {
        if self.takes(word) {
            Ok(())
        } else {
            self.fails(wanted)
        }
    }

    fn number(&mut self) -> Read<u32> {
        let end = self
            .text
            .find(|c: char| !c.is_ascii_digit())
            .unwrap_or(self.text.len());
        let Ok(number) = self.text[..end].parse() else {
            return self.fails("a number up to 4294967295");
        };
        self.skip(end);
        Ok(number)
    }

    fn string(&mut self) -> Read<String> {
        self.expect("\"", "a text in quotation marks")?;
        let mut out = String::new();
        loop {
            let Some(c) = self.text.chars().next() else {
                return self.fails("the quotation mark that ends the text");
            };
            self.skip(c.len_utf8());
            match c {
                '"' => return Ok(out),
                '\\' => out.push(self.escaped()?),
                c => out.push(c),
            }
        }
    }

    fn escaped(&mut self) -> Read<char> {
        let wanted = "an escape: \\\", \\\\ or \\u{..}";
        for plain in ["\"", "\\"] {
            if self.takes(plain) {
                return Ok(plain.chars().next().expect("it has one"));
            }
        }
        self.expect("u{", wanted)?;
        let end = self.text.find('}').unwrap_or(0);
        let Some(c) = u32::from_str_radix(&self.text[..end], 16)
            .ok()
            .and_then(char::from_u32)
        else {
            return self.fails("a code point in hexadecimal digits, and `}`");
        };
        self.skip(end + 1);
        Ok(c)
    }

    fn spaces(&mut self) -> usize {
        let end = self.text.find(|c| c != ' ').unwrap_or(self.text.len());
        self.skip(end);
        end
    }

    fn ended(&self) -> Read<()> {
        if self.text.is_empty() {
            Ok(())
        } else {
            self.fails("the end of the line")
        }
    }
}

/// A tree while its text is read.
#[derive(Default)]
struct Reader {
    nodes: Vec<Node>,
    names: Vec<[u32; 2]>,
    bytes: Vec<u8>,
    /// the first name with a text
    numbers: HashMap<String, Name>,
    /// names and bytes are said by lines of their own
    said: bool,
    path: Path,
}

impl Reader {
    fn append(&mut self, text: &str) -> Name {
        self.names
            .push([self.bytes.len() as u32, text.len() as u32]);
        self.bytes.extend(text.as_bytes());
        Name(self.names.len() as u32 - 1)
    }

    fn line(&mut self, text: &str) -> Read<()> {
        let mut rest = Rest { text, column: 1 };
        if text.starts_with("name ") || text.starts_with("bytes ") {
            if !self.nodes.is_empty() {
                return rest.fails("names and bytes in front of all nodes");
            }
            self.said = true;
            if rest.takes("name ") {
                self.name(&mut rest)?;
            } else {
                rest.skip("bytes ".len());
                self.unnamed(&mut rest)?;
            }
        } else {
            if self.nodes.is_empty() {
                self.number_names();
            }
            self.node(&mut rest)?;
        }
        rest.ended()
    }

    /// Which name a text stands for, once all that are said are there: the first one with it.
    fn number_names(&mut self) {
        for (number, [place, length]) in self
            .names
            .iter()
            .enumerate()
            .filter(|(_, [_, length])| *length <= LONG)
        {
            let bytes = self
                .bytes
                .get(*place as usize..*place as usize + *length as usize);
            if let Some(Ok(text)) = bytes.map(std::str::from_utf8) {
                self.numbers
                    .entry(text.into())
                    .or_insert(Name(number as u32));
            }
        }
    }

    fn name(&mut self, rest: &mut Rest<'_>) -> Read<()> {
        if rest.takes("@") {
            let place = rest.number()?;
            rest.expect("+", "`+` and the length of the name")?;
            self.names.push([place, rest.number()?]);
        } else {
            let text = rest.string()?;
            self.append(&text);
        }
        Ok(())
    }

    fn unnamed(&mut self, rest: &mut Rest<'_>) -> Read<()> {
        if !rest.takes("x") {
            self.bytes.extend(rest.string()?.into_bytes());
            return Ok(());
        }
        let digits = rest.text;
        let pairs = digits.as_bytes().chunks(2).map(|pair| {
            std::str::from_utf8(pair)
                .ok()
                .filter(|pair| pair.len() == 2)
        });
        let Some(bytes) = pairs
            .map(|pair| u8::from_str_radix(pair?, 16).ok())
            .collect::<Option<Vec<_>>>()
        else {
            return rest.fails("two hexadecimal digits for each byte");
        };
        self.bytes.extend(bytes);
        rest.skip(digits.len());
        Ok(())
    }

    fn node(&mut self, rest: &mut Rest<'_>) -> Read<()> {
        let indent = rest.spaces();
        let mut parent = self.path.parent(indent);
        if rest.takes("^") {
            parent = Some(rest.number()?);
            rest.expect(" ", "a space behind the parent's row")?;
        }
        let row = self.nodes.len() as u32;
        if parent.is_none() && row > 0 {
            return rest.fails("an indentation below the first node");
        }
        let mut tokens = Vec::new();
        if !rest.takes("-") {
            tokens.push(self.token(rest)?);
            while rest.takes(" ") {
                tokens.push(self.token(rest)?);
            }
        }
        self.path.enter(indent, row);
        self.nodes.push(Node { parent, tokens });
        Ok(())
    }

    fn token(&mut self, rest: &mut Rest<'_>) -> Read<Token> {
        if rest.takes("m") {
            let (raw, display) = self.both(rest)?;
            return Ok(Token::MemberName { raw, display });
        }
        if rest.takes("d") {
            let (raw, display) = self.both(rest)?;
            return Ok(Token::Descriptor { raw, display });
        }
        if rest.takes("@") {
            let raw = rest.number()?;
            let display = if rest.takes("=") { rest.number()? } else { raw };
            return Ok(Token::SourceLine { raw, display });
        }
        rest.expect(".", "a token: m\"..\", d\"..\", @LINE or .A:B")?;
        let a = rest.number()?;
        rest.expect(":", "`:` and a second number")?;
        Ok(Token::Other(a, rest.number()?))
    }

    fn both(&mut self, rest: &mut Rest<'_>) -> Read<(Name, Name)> {
        let raw = self.named(rest)?;
        let display = if rest.takes("=") {
            self.named(rest)?
        } else {
            raw
        };
        Ok((raw, display))
    }

    fn named(&mut self, rest: &mut Rest<'_>) -> Read<Name> {
        let column = rest.column;
        if rest.takes("#") {
            return rest.number().map(Name);
        }
        let text = rest.string()?;
        if rest.takes("#") {
            return rest.number().map(Name);
        }
        if let Some(name) = self.numbers.get(&text) {
            return Ok(*name);
        }
        if self.said {
            return Err((column, "a text that a `name` line in front has"));
        }
        let name = self.append(&text);
        self.numbers.insert(text, name);
        Ok(name)
    }
}

/// The tree of a text.
pub fn tree_of(text: &str) -> Result<Tree, Unread> {
    let mut reader = Reader::default();
    let mut last = 1;
    for (number, line) in text.lines().enumerate() {
        last = number + 1;
        if line.is_empty() || line.trim_start().starts_with("//") {
            continue;
        }
        reader.line(line).map_err(|(column, wanted)| Unread {
            line: last,
            column,
            wanted,
        })?;
    }
    let fault = Unread {
        line: last,
        column: 1,
        wanted: "a node, parents that stand before their children, and names that are there",
    };
    Tree::of_parts(reader.nodes, reader.names, reader.bytes).ok_or(fault)
}
