//! A small reader and writer of JSON trees, with the limits of the database.
use crate::{Tree, is_key};
use std::collections::BTreeMap;
use std::sync::Arc;

pub struct Reader<'a> {
    text: &'a str,
    at: usize,
    values: usize,
}

type Answer<T> = Result<T, &'static str>;

pub fn read(text: &str) -> Answer<Tree> {
    let mut reader = Reader { text, at: 0, values: 0 };
    let tree = reader.value(0)?;
    reader.space();
    if reader.at == text.len() { Ok(tree) } else { Err("more text") }
}

/// The compact JSON of a tree.
pub fn write(tree: &Tree, out: &mut String) {
    match tree {
        Tree::Null => out.push_str("null"),
        Tree::Truth(value) => out.push_str(if *value { "true" } else { "false" }),
        Tree::Number(value) => out.push_str(&value.to_string()),
        Tree::Text(text) => write_text(text, out),
        Tree::Object(children) => {
            for (place, (key, child)) in children.iter().enumerate() {
                out.push(if place == 0 { '{' } else { ',' });
                write_text(key, out);
                out.push(':');
                write(child, out);
            }
            out.push('}');
        }
    }
}

fn write_text(text: &str, out: &mut String) {
    out.push('"');
    for letter in text.chars() {
        match letter {
            '"' | '\\' => out.extend(['\\', letter]),
            '\u{0}'..='\u{1f}' => out.push_str(&format!("\\u{:04x}", letter as u32)),
            _ => out.push(letter),
        }
    }
    out.push('"');
}

impl Reader<'_> {
    fn space(&mut self) {
        while matches!(self.peek(), Some(b' ' | b'\n' | b'\r' | b'\t')) {
            self.at += 1;
        }
    }

    fn peek(&self) -> Option<u8> {
        self.text.as_bytes().get(self.at).copied()
    }

    fn eat(&mut self, word: &str) -> bool {
        let found = self.text.as_bytes()[self.at..].starts_with(word.as_bytes());
        if found {
            self.at += word.len();
        }
        found
    }

    fn expect(&mut self, word: &str) -> Answer<()> {
        self.space();
        if self.eat(word) { Ok(()) } else { Err("not json") }
    }

    fn value(&mut self, level: usize) -> Answer<Tree> {
        self.values += 1;
        if self.values > 65536 {
            return Err("too many values");
        }
        if level > 32 {
            return Err("too deep");
        }
        self.space();
        match self.peek() {
            Some(b'{') => self.object(level),
            Some(b'[') => self.array(level),
            Some(b'"') => Ok(Tree::Text(self.string()?)),
            Some(b'-' | b'0'..=b'9') => self.number(),
            _ if self.eat("null") => Ok(Tree::Null),
            _ if self.eat("true") => Ok(Tree::Truth(true)),
            _ if self.eat("false") => Ok(Tree::Truth(false)),
            _ => Err("not json"),
        }
    }

    fn object(&mut self, level: usize) -> Answer<Tree> {
        self.at += 1;
        let mut children = BTreeMap::new();
        self.space();
        if !self.eat("}") {
            loop {
                self.space();
                let key = self.string()?;
                if !is_key(&key) {
                    return Err("bad key");
                }
                self.expect(":")?;
                let child = self.value(level + 1)?;
                if child != Tree::Null {
                    children.insert(key, child);
                }
                self.space();
                if self.eat("}") {
                    break;
                }
                self.expect(",")?;
            }
        }
        Ok(object(children))
    }

    fn array(&mut self, level: usize) -> Answer<Tree> {
        self.at += 1;
        let mut children = BTreeMap::new();
        self.space();
        if !self.eat("]") {
            for place in 0.. {
                let child = self.value(level + 1)?;
                if child != Tree::Null {
                    children.insert(place.to_string(), child);
                }
                self.space();
                if self.eat("]") {
                    break;
                }
                self.expect(",")?;
            }
        }
        Ok(object(children))
    }

    fn number(&mut self) -> Answer<Tree> {
        let start = self.at;
        while matches!(self.peek(), Some(b'-' | b'+' | b'.' | b'e' | b'E' | b'0'..=b'9')) {
            self.at += 1;
        }
        let number: i64 = self.text[start..self.at].parse().map_err(|_| "not whole")?;
        if number.abs() > 9007199254740991 { Err("not whole") } else { Ok(Tree::Number(number)) }
    }

    fn string(&mut self) -> Answer<String> {
        if !self.eat("\"") {
            return Err("not json");
        }
        let mut text = String::new();
        loop {
            let rest = &self.text[self.at..];
            let end = rest.find(['"', '\\']).ok_or("not json")?;
            text.push_str(&rest[..end]);
            self.at += end + 1;
            if rest.as_bytes()[end] == b'"' {
                return if text.len() > 65536 { Err("text too long") } else { Ok(text) };
            }
            text.push(self.escape()?);
        }
    }

    fn escape(&mut self) -> Answer<char> {
        let letter = self.peek().ok_or("not json")?;
        self.at += 1;
        Ok(match letter {
            b'n' => '\n',
            b'r' => '\r',
            b't' => '\t',
            b'b' => '\u{8}',
            b'f' => '\u{c}',
            b'"' | b'\\' | b'/' => letter as char,
            b'u' => {
                let digits = self.text.get(self.at..self.at + 4).ok_or("not json")?;
                self.at += 4;
                let code = u32::from_str_radix(digits, 16).map_err(|_| "not json")?;
                char::from_u32(code).ok_or("not json")?
            }
            _ => return Err("not json"),
        })
    }
}

fn object(children: BTreeMap<String, Tree>) -> Tree {
    if children.is_empty() { Tree::Null } else { Tree::Object(Arc::new(children)) }
}
