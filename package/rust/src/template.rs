//! Variables of templates.
use crate::grammar::at;
use crate::{ffi, Error};
use std::marker::PhantomData;

/// The value of a variable (RFC 6570 section 2.3).
#[derive(Debug, Clone, Copy, PartialEq, Eq, Hash)]
pub enum Value<'a> {
    /// No value.
    Undefined,
    /// A string.
    Text(&'a str),
    /// A list.
    List(&'a [&'a str]),
    /// An associative array: keys with their values, in this order.
    Pairs(&'a [(&'a str, &'a str)]),
}

impl<'a> From<&'a str> for Value<'a> {
    fn from(text: &'a str) -> Self {
        Value::Text(text)
    }
}

impl<'a> From<&'a [&'a str]> for Value<'a> {
    fn from(items: &'a [&'a str]) -> Self {
        Value::List(items)
    }
}

impl<'a> From<&'a [(&'a str, &'a str)]> for Value<'a> {
    fn from(pairs: &'a [(&'a str, &'a str)]) -> Self {
        Value::Pairs(pairs)
    }
}

/// Variables as C has them. The texts that each points to stand in its vector, which isn't changed.
pub(crate) struct Array<'a> {
    variables: Vec<ffi::Variable>,
    _texts: Vec<Vec<ffi::Text>>,
    _of: PhantomData<&'a str>,
}

impl<'a> Array<'a> {
    pub(crate) fn of(variables: &[(&'a str, Value<'a>)]) -> Self {
        let texts: Vec<Vec<ffi::Text>> = variables.iter().map(|(_, value)| texts(value)).collect();
        let variables = variables
            .iter()
            .zip(&texts)
            .map(|((name, value), texts)| ffi::Variable {
                name: text(name),
                kind: kind(value),
                values: texts.as_ptr(),
                count: texts.len(),
            });
        Array {
            variables: variables.collect(),
            _texts: texts,
            _of: PhantomData,
        }
    }

    pub(crate) fn parts(&self) -> (*const ffi::Variable, usize) {
        (self.variables.as_ptr(), self.variables.len())
    }
}

fn text(text: &str) -> ffi::Text {
    let (bytes, len) = at(text);
    ffi::Text { bytes, len }
}

/// The number of a value's kind in `irikit.h`.
fn kind(value: &Value<'_>) -> usize {
    match value {
        Value::Undefined => ffi::IRIKIT_UNDEFINED,
        Value::Text(_) => ffi::IRIKIT_STRING,
        Value::List(_) => ffi::IRIKIT_LIST,
        Value::Pairs(_) => ffi::IRIKIT_PAIRS,
    }
}

fn texts(value: &Value<'_>) -> Vec<ffi::Text> {
    match value {
        Value::Undefined => Vec::new(),
        Value::Text(one) => vec![text(one)],
        Value::List(items) => items.iter().map(|item| text(item)).collect(),
        Value::Pairs(pairs) => pairs
            .iter()
            .flat_map(|(key, item)| [text(key), text(item)])
            .collect(),
    }
}

/// The length of an expansion, or why there is none.
pub(crate) fn refuse(status: u8, detail: usize, place: usize) -> Result<usize, Error> {
    match status {
        ffi::IRIKIT_OK => Ok(detail),
        _ => Err(Error::of_template(status, detail, place)),
    }
}
