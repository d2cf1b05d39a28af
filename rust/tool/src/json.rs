//! A writer of JSON, as much of it as the tool needs.

use crate::characters::is_plain;
use std::fmt::{self, Display, Formatter, Write};

pub enum Json {
    Null,
    Text(String),
    Number(usize),
    List(Vec<Json>),
    Object(Vec<(&'static str, Json)>),
}

impl Json {
    pub fn text(words: &str) -> Json {
        Json::Text(words.to_string())
    }

    pub fn number(number: usize) -> Json {
        Json::Number(number)
    }

    pub fn numbers(numbers: &[usize]) -> Json {
        Json::List(numbers.iter().copied().map(Json::Number).collect())
    }
}

impl Display for Json {
    fn fmt(&self, out: &mut Formatter) -> fmt::Result {
        match self {
            Json::Null => out.write_str("null"),
            Json::Text(words) => write_text(out, words),
            Json::Number(number) => write!(out, "{number}"),
            Json::List(items) => write_list(out, items),
            Json::Object(fields) => write_object(out, fields),
        }
    }
}

fn write_list(out: &mut Formatter, items: &[Json]) -> fmt::Result {
    out.write_char('[')?;
    for (index, item) in items.iter().enumerate() {
        let comma = if index > 0 { ", " } else { "" };
        write!(out, "{comma}{item}")?;
    }
    out.write_char(']')
}

fn write_object(out: &mut Formatter, fields: &[(&'static str, Json)]) -> fmt::Result {
    out.write_char('{')?;
    for (index, (name, value)) in fields.iter().enumerate() {
        let comma = if index > 0 { ", " } else { "" };
        write!(out, "{comma}\"{name}\": {value}")?;
    }
    out.write_char('}')
}

fn write_text(out: &mut Formatter, words: &str) -> fmt::Result {
    out.write_char('"')?;
    for character in words.chars() {
        match character {
            '"' => out.write_str("\\\"")?,
            '\\' => out.write_str("\\\\")?,
            '\n' => out.write_str("\\n")?,
            c if is_plain(c) => out.write_char(c)?,
            c => write_escaped(out, c)?,
        }
    }
    out.write_char('"')
}

// JSON names a character beyond the first 65,536 by two numbers.
fn write_escaped(out: &mut Formatter, character: char) -> fmt::Result {
    for unit in character.encode_utf16(&mut [0; 2]) {
        write!(out, "\\u{unit:04x}")?;
    }
    Ok(())
}

#[cfg(test)]
mod tests {
    use super::*;

    #[test]
    fn text_is_escaped() {
        let json = Json::Object(vec![
            ("words", Json::text("a \"b\"\\\n\u{1}é\u{202e}\u{e0001}")),
            ("numbers", Json::numbers(&[1, 2])),
            ("nothing", Json::Null),
        ]);
        let expected = r#"{"words": "a \"b\"\\\n\u0001é\u202e\udb40\udc01", "numbers": [1, 2], "nothing": null}"#;
        assert_eq!(json.to_string(), expected);
    }
}
