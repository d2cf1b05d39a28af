//! For tests/tool: reads JSON on standard input, strictly, and prints a line for each path: its value, or what is wrong.
//!
//! A path is names and places with dots between them; # is the length of a list.

use std::env;
use std::io::{self, Read};

enum Value {
    /// A number, true, false or null, as it is written.
    Plain(String),
    Text(String),
    List(Vec<Value>),
    Object(Vec<(String, Value)>),
}

fn main() {
    let mut text = String::new();
    let read = io::stdin().read_to_string(&mut text);
    let value = read
        .map_err(|error| error.to_string())
        .and_then(|_| parse(&text));
    for path in env::args().skip(1) {
        let found = value.as_ref().map_err(String::clone);
        let found = found.and_then(|value| at(value, &path));
        println!("{}", found.unwrap_or_else(|fault| fault));
    }
}

fn at(value: &Value, path: &str) -> Result<String, String> {
    let (step, rest) = path.split_once('.').unwrap_or((path, ""));
    let next = match value {
        _ if path.is_empty() => return Ok(written(value)),
        Value::List(items) if step == "#" => return Ok(items.len().to_string()),
        Value::List(items) => step.parse().ok().and_then(|place: usize| items.get(place)),
        Value::Object(fields) => fields
            .iter()
            .find(|(name, _)| name == step)
            .map(|(_, value)| value),
        _ => None,
    };
    at(next.ok_or(format!("there is no {step}"))?, rest)
}

fn written(value: &Value) -> String {
    match value {
        Value::Plain(words) => words.clone(),
        Value::Text(text) => format!("{text:?}"),
        Value::List(items) => format!(
            "[{}]",
            items.iter().map(written).collect::<Vec<_>>().join(",")
        ),
        Value::Object(fields) => {
            let fields = fields
                .iter()
                .map(|(name, value)| format!("{name:?}:{}", written(value)));
            format!("{{{}}}", fields.collect::<Vec<_>>().join(","))
        }
    }
}

/// What is left of the text.
struct Rest<'a>(&'a str);

fn parse(text: &str) -> Result<Value, String> {
    let mut rest = Rest(text);
    let value = rest.value()?;
    rest.skip_blanks();
    if !rest.0.is_empty() {
        return Err(rest.fault("the end"));
    }
    Ok(value)
}

impl Rest<'_> {
    fn fault(&self, expected: &str) -> String {
        let found: String = self.0.chars().take(20).collect();
        format!("no JSON: expected {expected}, found {found:?}")
    }

    fn skip_blanks(&mut self) {
        self.0 = self.0.trim_start_matches([' ', '\t', '\r', '\n']);
    }

    fn takes(&mut self, mark: char) -> bool {
        self.skip_blanks();
        let left = self.0.strip_prefix(mark);
        self.0 = left.unwrap_or(self.0);
        left.is_some()
    }

    fn value(&mut self) -> Result<Value, String> {
        if self.takes('{') {
            return self.items('}', Rest::field).map(Value::Object);
        }
        if self.takes('[') {
            return self.items(']', Rest::value).map(Value::List);
        }
        if self.takes('"') {
            return self.text().map(Value::Text);
        }
        self.plain()
    }

    fn items<T>(
        &mut self,
        end: char,
        item: fn(&mut Self) -> Result<T, String>,
    ) -> Result<Vec<T>, String> {
        let mut items = Vec::new();
        if self.takes(end) {
            return Ok(items);
        }
        loop {
            items.push(item(self)?);
            if self.takes(end) {
                return Ok(items);
            }
            if !self.takes(',') {
                return Err(self.fault("a comma"));
            }
        }
    }

    fn field(&mut self) -> Result<(String, Value), String> {
        if !self.takes('"') {
            return Err(self.fault("a name"));
        }
        let name = self.text()?;
        if !self.takes(':') {
            return Err(self.fault("a colon"));
        }
        Ok((name, self.value()?))
    }

    fn plain(&mut self) -> Result<Value, String> {
        let end = self
            .0
            .find(|c: char| !c.is_ascii_alphanumeric())
            .unwrap_or(self.0.len());
        let (words, left) = self.0.split_at(end);
        let number = words == "0" || (!words.starts_with('0') && words.parse::<u64>().is_ok());
        if !number && !["true", "false", "null"].contains(&words) {
            return Err(self.fault("a value"));
        }
        self.0 = left;
        Ok(Value::Plain(words.to_string()))
    }

    fn text(&mut self) -> Result<String, String> {
        let mut text = String::new();
        loop {
            let next = self
                .0
                .chars()
                .next()
                .ok_or_else(|| self.fault("the end of a text"))?;
            if next.is_ascii_control() {
                return Err(self.fault("no control character in a text"));
            }
            self.0 = &self.0[next.len_utf8()..];
            match next {
                '"' => return Ok(text),
                '\\' => text.push(self.escape()?),
                other => text.push(other),
            }
        }
    }

    fn escape(&mut self) -> Result<char, String> {
        let kind = self
            .0
            .chars()
            .next()
            .ok_or_else(|| self.fault("an escape"))?;
        if kind == 'u' {
            let digits = self.0.get(1..5).ok_or_else(|| self.fault("four digits"))?;
            let code = u32::from_str_radix(digits, 16).map_err(|_| self.fault("four digits"))?;
            self.0 = &self.0[5..];
            return char::from_u32(code).ok_or_else(|| self.fault("a character"));
        }
        let known = "\"\\/bfnrt"
            .find(kind)
            .ok_or_else(|| self.fault("an escape"))?;
        self.0 = &self.0[1..];
        Ok(['"', '\\', '/', '\u{8}', '\u{c}', '\n', '\r', '\t'][known])
    }
}
