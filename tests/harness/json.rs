//! As much of JSON as recorded vectors and scenes use: texts, whole numbers, lists, objects, nothing.

use std::collections::HashMap;

use super::recorded::bytes_of_hex;

pub enum Json {
    Null,
    Text(String),
    Number(i128),
    List(Vec<Json>),
    Object(HashMap<String, Json>),
}

impl Json {
    /// The object that a line is.
    pub fn of_line(line: &str) -> Option<Json> {
        let mut reader = JsonReader { left: line };
        reader.object().map(Json::Object)
    }

    /// A field of an object.
    pub fn get(&self, key: &str) -> Option<&Json> {
        match self {
            Json::Object(fields) => fields.get(key),
            _ => None,
        }
    }

    /// The elements of a list, each read alike.
    pub fn each<T>(&self, read: impl Fn(&Json) -> Option<T>) -> Option<Vec<T>> {
        match self {
            Json::List(elements) => elements.iter().map(read).collect(),
            _ => None,
        }
    }

    /// Bytes in hexadecimal.
    pub fn bytes(&self) -> Option<Vec<u8>> {
        bytes_of_hex(self.text()?)
    }

    pub fn words(&self) -> Option<Vec<i64>> {
        self.each(Json::signed)
    }

    pub fn text(&self) -> Option<&str> {
        match self {
            Json::Text(text) => Some(text),
            _ => None,
        }
    }

    pub fn unsigned(&self) -> Option<u64> {
        u64::try_from(self.number()?).ok()
    }

    pub fn signed(&self) -> Option<i64> {
        i64::try_from(self.number()?).ok()
    }

    fn number(&self) -> Option<i128> {
        match self {
            Json::Number(number) => Some(*number),
            _ => None,
        }
    }
}

struct JsonReader<'a> {
    left: &'a str,
}

impl JsonReader<'_> {
    fn expect(&mut self, token: &str) -> Option<()> {
        self.left = self.left.trim_start().strip_prefix(token)?;
        Some(())
    }

    fn value(&mut self) -> Option<Json> {
        let start = self.left.trim_start();
        if start.starts_with('"') {
            return self.text().map(Json::Text);
        }
        if start.starts_with('[') {
            return self.list().map(Json::List);
        }
        if start.starts_with('{') {
            return self.object().map(Json::Object);
        }
        if self.expect("null").is_some() {
            return Some(Json::Null);
        }
        self.number().map(Json::Number)
    }

    fn text(&mut self) -> Option<String> {
        self.expect("\"")?;
        let mut text = String::new();
        let mut characters = self.left.chars();
        loop {
            match characters.next()? {
                '"' => break,
                '\\' => match characters.next()? {
                    'n' => text.push('\n'),
                    other => text.push(other),
                },
                other => text.push(other),
            }
        }
        self.left = characters.as_str();
        Some(text)
    }

    fn number(&mut self) -> Option<i128> {
        let start = self.left.trim_start();
        let end = start
            .find(|c: char| c != '-' && !c.is_ascii_digit())
            .unwrap_or(start.len());
        let number = start.get(..end)?.parse().ok()?;
        self.left = start.get(end..)?;
        Some(number)
    }

    fn list(&mut self) -> Option<Vec<Json>> {
        self.expect("[")?;
        let mut elements = Vec::new();
        if self.expect("]").is_some() {
            return Some(elements);
        }
        loop {
            elements.push(self.value()?);
            if self.expect(",").is_none() {
                self.expect("]")?;
                return Some(elements);
            }
        }
    }

    fn object(&mut self) -> Option<HashMap<String, Json>> {
        let mut fields = HashMap::new();
        self.expect("{")?;
        if self.expect("}").is_some() {
            return Some(fields);
        }
        loop {
            let key = self.text()?;
            self.expect(":")?;
            fields.insert(key, self.value()?);
            if self.expect(",").is_none() {
                self.expect("}")?;
                return Some(fields);
            }
        }
    }
}
