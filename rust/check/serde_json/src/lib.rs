//! Test code: what the programs and tests here call of the crate `serde_json`, so that they need no registry.
//!
//! The package `beside` runs them over the crate itself.

mod read;

pub use read::from_str;

use std::fmt;

/// A JSON value. The members of an object are in the order of their names, each once.
#[derive(Clone, Debug, PartialEq)]
pub enum Value {
    Null,
    Bool(bool),
    Number(Number),
    String(String),
    Array(Vec<Value>),
    Object(Vec<(String, Value)>),
}

/// A number: the crate keeps whole numbers apart from others.
#[derive(Clone, Copy, Debug, PartialEq)]
pub enum Number {
    Whole(i128),
    Other(f64),
}

/// That a text is no JSON.
#[derive(Debug)]
pub struct Error;

impl Value {
    pub fn get(&self, name: &str) -> Option<&Value> {
        match self {
            Value::Object(members) => members.iter().find(|member| member.0 == name).map(|member| &member.1),
            _ => None,
        }
    }
    pub fn as_u64(&self) -> Option<u64> {
        match self {
            Value::Number(Number::Whole(number)) => u64::try_from(*number).ok(),
            _ => None,
        }
    }
    pub fn as_i64(&self) -> Option<i64> {
        match self {
            Value::Number(Number::Whole(number)) => i64::try_from(*number).ok(),
            _ => None,
        }
    }
    pub fn as_array(&self) -> Option<&Vec<Value>> {
        match self {
            Value::Array(values) => Some(values),
            _ => None,
        }
    }
    pub fn is_null(&self) -> bool {
        *self == Value::Null
    }
    pub fn object(mut members: Vec<(String, Value)>) -> Value {
        members.sort_by(|a, b| a.0.cmp(&b.0));
        Value::Object(members)
    }
}

macro_rules! whole {
    ($($number:ty)*) => {
        $(impl From<$number> for Value {
            fn from(number: $number) -> Value {
                Value::Number(Number::Whole(number as i128))
            }
        })*
    };
}
whole!(u8 u16 u32 u64 i32 i64 usize);

impl From<bool> for Value {
    fn from(truth: bool) -> Value {
        Value::Bool(truth)
    }
}

impl From<Vec<Value>> for Value {
    fn from(values: Vec<Value>) -> Value {
        Value::Array(values)
    }
}

/// What `json!` names: it may be called where there is no prelude of std.
#[doc(hidden)]
pub mod __private {
    pub use std::string::String;
    pub use std::vec;
}

/// An array, an object, or any value that `From` makes.
#[macro_export]
macro_rules! json {
    ([$($value:tt),*]) => { $crate::Value::Array($crate::__private::vec![$($crate::json!($value)),*]) };
    ({$($name:literal: $value:tt),*}) => {
        $crate::Value::object($crate::__private::vec![$(($crate::__private::String::from($name), $crate::json!($value))),*])
    };
    ({$($name:literal: $value:expr),* $(,)?}) => {
        $crate::Value::object($crate::__private::vec![$(($crate::__private::String::from($name), $crate::Value::from($value))),*])
    };
    (null) => { $crate::Value::Null };
    ($value:expr) => { $crate::Value::from($value) };
}

/// Writes a text between quotation marks.
fn write_text(text: &str, f: &mut fmt::Formatter<'_>) -> fmt::Result {
    use fmt::Write;
    f.write_char('"')?;
    for character in text.chars() {
        match character {
            '"' | '\\' => write!(f, "\\{character}")?,
            '\0'..='\x1f' => write!(f, "\\u{:04x}", u32::from(character))?,
            _ => f.write_char(character)?,
        }
    }
    f.write_char('"')
}

/// Writes what stands between two brackets, with commas.
fn write_all<T>(items: &[T], f: &mut fmt::Formatter<'_>, write: fn(&T, &mut fmt::Formatter<'_>) -> fmt::Result) -> fmt::Result {
    for (at, item) in items.iter().enumerate() {
        f.write_str(if at == 0 { "" } else { "," })?;
        write(item, f)?;
    }
    Ok(())
}

impl fmt::Display for Value {
    fn fmt(&self, f: &mut fmt::Formatter<'_>) -> fmt::Result {
        match self {
            Value::Null => f.write_str("null"),
            Value::Bool(truth) => write!(f, "{truth}"),
            Value::Number(Number::Whole(number)) => write!(f, "{number}"),
            Value::Number(Number::Other(number)) => write!(f, "{number:?}"),
            Value::String(text) => write_text(text, f),
            Value::Array(values) => {
                f.write_str("[")?;
                write_all(values, f, |value, f| write!(f, "{value}"))?;
                f.write_str("]")
            }
            Value::Object(members) => {
                f.write_str("{")?;
                write_all(members, f, |(name, value), f| {
                    write_text(name, f)?;
                    write!(f, ":{value}")
                })?;
                f.write_str("}")
            }
        }
    }
}
