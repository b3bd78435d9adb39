//! A reader of JSON, as the crate reads it: nothing may stand behind the value, and of members with one name the last counts.

use crate::{Error, Number, Value};

/// How deep arrays and objects may stand in each other.
const DEPTH: usize = 127;

/// Reads a value from a text.
pub fn from_str(text: &str) -> Result<Value, Error> {
    let mut reader = Reader { text, rest: text };
    let value = reader.value(DEPTH)?;
    reader.skip_space();
    if reader.rest.is_empty() {
        Ok(value)
    } else {
        Err(Error)
    }
}

struct Reader<'a> {
    text: &'a str,
    rest: &'a str,
}

impl Reader<'_> {
    fn skip_space(&mut self) {
        self.rest = self.rest.trim_start_matches([' ', '\t', '\n', '\r']);
    }

    /// Takes a word, if the text goes on with it.
    fn takes(&mut self, word: &str) -> bool {
        match self.rest.strip_prefix(word) {
            Some(rest) => {
                self.rest = rest;
                true
            }
            None => false,
        }
    }

    /// The same behind space.
    fn takes_mark(&mut self, mark: &str) -> bool {
        self.skip_space();
        self.takes(mark)
    }

    fn needs(&mut self, mark: &str) -> Result<(), Error> {
        if self.takes_mark(mark) {
            Ok(())
        } else {
            Err(Error)
        }
    }

    fn value(&mut self, depth: usize) -> Result<Value, Error> {
        self.skip_space();
        for (word, value) in [("null", Value::Null), ("true", Value::Bool(true)), ("false", Value::Bool(false))] {
            if self.takes(word) {
                return Ok(value);
            }
        }
        match self.rest.as_bytes().first() {
            Some(b'[') => self.array(depth.checked_sub(1).ok_or(Error)?),
            Some(b'{') => self.object(depth.checked_sub(1).ok_or(Error)?),
            Some(b'"') => self.string().map(Value::String),
            _ => self.number().map(Value::Number),
        }
    }

    fn array(&mut self, depth: usize) -> Result<Value, Error> {
        self.needs("[")?;
        let mut values = Vec::new();
        if self.takes_mark("]") {
            return Ok(Value::Array(values));
        }
        loop {
            values.push(self.value(depth)?);
            if self.takes_mark("]") {
                return Ok(Value::Array(values));
            }
            self.needs(",")?;
        }
    }

    fn object(&mut self, depth: usize) -> Result<Value, Error> {
        self.needs("{")?;
        let mut members: Vec<(String, Value)> = Vec::new();
        if self.takes_mark("}") {
            return Ok(Value::object(members));
        }
        loop {
            self.skip_space();
            let name = self.string()?;
            self.needs(":")?;
            let value = self.value(depth)?;
            members.retain(|member| member.0 != name);
            members.push((name, value));
            if self.takes_mark("}") {
                return Ok(Value::object(members));
            }
            self.needs(",")?;
        }
    }

    fn string(&mut self) -> Result<String, Error> {
        let mut made = String::new();
        if !self.takes("\"") {
            return Err(Error);
        }
        loop {
            let mut rest = self.rest.chars();
            let character = rest.next().ok_or(Error)?;
            self.rest = rest.as_str();
            match character {
                '"' => return Ok(made),
                '\\' => made.push(self.escaped()?),
                '\0'..='\x1f' => return Err(Error),
                _ => made.push(character),
            }
        }
    }

    fn escaped(&mut self) -> Result<char, Error> {
        let pairs = ["\"\"", "\\\\", "//", "b\x08", "f\x0c", "n\n", "r\r", "t\t"];
        for pair in pairs {
            let (letter, meaning) = pair.split_at(1);
            if self.takes(letter) {
                return meaning.chars().next().ok_or(Error);
            }
        }
        let first = self.unit()?;
        let mut units = vec![first];
        if (0xd800..0xdc00).contains(&first) && self.takes("\\") {
            units.push(self.unit()?);
        }
        let mut characters = char::decode_utf16(units);
        match (characters.next(), characters.next()) {
            (Some(Ok(character)), None) => Ok(character),
            _ => Err(Error),
        }
    }

    /// `u` and four digits of base 16.
    fn unit(&mut self) -> Result<u16, Error> {
        let digits = self.rest.get(1..5).ok_or(Error)?;
        if !self.rest.starts_with('u') || !digits.bytes().all(|digit| digit.is_ascii_hexdigit()) {
            return Err(Error);
        }
        self.rest = &self.rest[5..];
        u16::from_str_radix(digits, 16).map_err(|_| Error)
    }

    fn digits(&mut self) -> &str {
        let rest = self.rest;
        self.rest = rest.trim_start_matches(|character: char| character.is_ascii_digit());
        &rest[..rest.len() - self.rest.len()]
    }

    /// A number without a point or an exponent is a whole one, but for `-0` and for those that no 64 bits hold.
    fn number(&mut self) -> Result<Number, Error> {
        let start = self.text.len() - self.rest.len();
        let is_negative = self.takes("-");
        let whole = self.digits();
        if whole.is_empty() || whole.len() > 1 && whole.starts_with('0') {
            return Err(Error);
        }
        let mut is_whole = true;
        if self.takes(".") {
            is_whole = false;
            if self.digits().is_empty() {
                return Err(Error);
            }
        }
        if self.takes("e") || self.takes("E") {
            is_whole = false;
            let _sign = self.takes("+") || self.takes("-");
            if self.digits().is_empty() {
                return Err(Error);
            }
        }
        let text = &self.text[start..self.text.len() - self.rest.len()];
        let held = text.parse::<i128>().ok().filter(|number| (i64::MIN.into()..=u64::MAX.into()).contains(number));
        match held {
            Some(number) if is_whole && !(is_negative && number == 0) => Ok(Number::Whole(number)),
            _ => text.parse::<f64>().ok().filter(|number| number.is_finite()).map(Number::Other).ok_or(Error),
        }
    }
}
