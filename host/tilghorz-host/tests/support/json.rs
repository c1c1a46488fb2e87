//! JSON values, and the part of JSON Schema that docs/report.schema.json uses.

/// A value.
#[derive(Debug, Clone, PartialEq)]
pub enum Value {
    Null,
    Bool(bool),
    Number(f64),
    Text(String),
    Array(Vec<Value>),
    Object(Vec<(String, Value)>),
}

/// Reads a text that is one value.
pub fn parse(text: &str) -> Result<Value, String> {
    let mut reader = Reader { rest: text };
    let value = reader.value()?;
    reader.skip_blanks();
    match reader.rest {
        "" => Ok(value),
        rest => Err(format!("more after the value: {rest}")),
    }
}

struct Reader<'a> {
    rest: &'a str,
}

impl Reader<'_> {
    fn skip_blanks(&mut self) {
        self.rest = self.rest.trim_start_matches([' ', '\n', '\r', '\t']);
    }

    /// Takes a word, if it is next.
    fn takes(&mut self, word: &str) -> bool {
        self.skip_blanks();
        let rest = self.rest.strip_prefix(word);
        self.rest = rest.unwrap_or(self.rest);
        rest.is_some()
    }

    fn expect(&mut self, word: &str) -> Result<(), String> {
        match self.takes(word) {
            true => Ok(()),
            false => Err(format!("no {word} at {}", self.rest)),
        }
    }

    fn value(&mut self) -> Result<Value, String> {
        for (word, value) in [
            ("null", Value::Null),
            ("true", Value::Bool(true)),
            ("false", Value::Bool(false)),
        ] {
            if self.takes(word) {
                return Ok(value);
            }
        }
        match self.rest.chars().next() {
            Some('"') => self.text().map(Value::Text),
            Some('[') => self.array(),
            Some('{') => self.object(),
            _ => self.number(),
        }
    }

    fn number(&mut self) -> Result<Value, String> {
        let is_part = |character: char| "+-.eE0123456789".contains(character);
        let end = self.rest.find(|character| !is_part(character));
        let (number, rest) = self.rest.split_at(end.unwrap_or(self.rest.len()));
        self.rest = rest;
        let number = number
            .parse()
            .map_err(|_| format!("no value at {number}{rest}"))?;
        Ok(Value::Number(number))
    }

    fn text(&mut self) -> Result<String, String> {
        self.expect("\"")?;
        let mut text = String::new();
        loop {
            let mut rest = self.rest.chars();
            let character = rest.next().ok_or("a text without an end")?;
            self.rest = rest.as_str();
            match character {
                '"' => return Ok(text),
                '\\' => text.push(self.escaped()?),
                '\0'..' ' => return Err("a control character in a text".to_owned()),
                _ => text.push(character),
            }
        }
    }

    fn escaped(&mut self) -> Result<char, String> {
        let mut rest = self.rest.chars();
        let escape = rest.next();
        self.rest = rest.as_str();
        Ok(match escape {
            Some(same @ ('"' | '\\' | '/')) => same,
            Some('n') => '\n',
            Some('t') => '\t',
            Some('u') => {
                let digits = self.rest.get(..4).ok_or("too few digits")?;
                let number = u32::from_str_radix(digits, 16).map_err(|_| "no digits")?;
                self.rest = &self.rest[4..];
                char::from_u32(number).ok_or("half a pair")?
            }
            _ => return Err(format!("an unknown escape {escape:?}")),
        })
    }

    fn array(&mut self) -> Result<Value, String> {
        self.expect("[")?;
        let mut values = Vec::new();
        if self.takes("]") {
            return Ok(Value::Array(values));
        }
        loop {
            values.push(self.value()?);
            if self.takes("]") {
                return Ok(Value::Array(values));
            }
            self.expect(",")?;
        }
    }

    fn object(&mut self) -> Result<Value, String> {
        self.expect("{")?;
        let mut members: Vec<(String, Value)> = Vec::new();
        if self.takes("}") {
            return Ok(Value::Object(members));
        }
        loop {
            self.skip_blanks();
            let name = self.text()?;
            self.expect(":")?;
            if members.iter().any(|(before, _)| *before == name) {
                return Err(format!("{name} is there twice"));
            }
            members.push((name, self.value()?));
            if self.takes("}") {
                return Ok(Value::Object(members));
            }
            self.expect(",")?;
        }
    }
}

impl Value {
    /// A member of an object.
    pub fn get(&self, name: &str) -> Option<&Self> {
        let Self::Object(members) = self else {
            return None;
        };
        let mut members = members.iter();
        members.find_map(|(member, value)| (member == name).then_some(value))
    }

    /// The text, or an empty one.
    pub fn text(&self) -> &str {
        match self {
            Self::Text(text) => text,
            _ => "",
        }
    }

    fn members(&self) -> &[(String, Self)] {
        match self {
            Self::Object(members) => members,
            _ => &[],
        }
    }

    fn rows(&self) -> &[Self] {
        match self {
            Self::Array(rows) => rows,
            _ => &[],
        }
    }
}

/// What of a value does not follow a schema, which is a part of a whole schema. A keyword that is not known here is a
/// fault, too.
pub fn fault(value: &Value, schema: &Value, whole: &Value) -> Option<String> {
    let faults = schema.members().iter().filter_map(|(keyword, rule)| {
        let fault = match keyword.as_str() {
            "$schema" | "$defs" | "title" | "description" => None,
            "$ref" => {
                let name = rule.text().strip_prefix("#/$defs/").unwrap_or_default();
                let part = whole.get("$defs").and_then(|parts| parts.get(name));
                part.map_or(Some(format!("no part {name}")), |part| {
                    fault(value, part, whole)
                })
            }
            "type" => (!has_type(value, rule.text())).then(|| format!("it is no {}", rule.text())),
            "enum" => (!rule.rows().contains(value)).then(|| "it is none of the values".to_owned()),
            "minimum" => match (value, rule) {
                (Value::Number(number), Value::Number(least)) if number < least => {
                    Some(format!("it is below {least}"))
                }
                _ => None,
            },
            "pattern" => {
                (!matches(value.text(), rule.text())).then(|| "not the pattern".to_owned())
            }
            "required" => {
                let mut names = rule.rows().iter().map(Value::text);
                let missing = names.find(|name| value.get(name).is_none());
                missing.map(|name| format!("{name} is missing"))
            }
            "properties" => {
                let mut members = value.members().iter();
                members.find_map(|(name, member)| {
                    let fault = fault(member, rule.get(name)?, whole)?;
                    Some(format!("{name}: {fault}"))
                })
            }
            "additionalProperties" => {
                let known = schema.get("properties").expect("properties");
                let mut members = value.members().iter();
                let unknown = members.find(|(name, _)| known.get(name).is_none());
                unknown.map(|(name, _)| format!("{name} is unknown"))
            }
            "items" => value.rows().iter().find_map(|row| fault(row, rule, whole)),
            "oneOf" => {
                let good = rule
                    .rows()
                    .iter()
                    .filter(|rule| fault(value, rule, whole).is_none());
                let good = good.count();
                (good != 1).then(|| format!("{good} of the cases hold"))
            }
            _ => Some(format!("the keyword {keyword} is unknown")),
        };
        fault.map(|fault| format!("{keyword}: {fault}"))
    });
    faults.into_iter().next()
}

fn has_type(value: &Value, name: &str) -> bool {
    match value {
        Value::Null => name == "null",
        Value::Bool(_) => name == "boolean",
        Value::Number(number) => name == "number" || name == "integer" && number.fract() == 0.0,
        Value::Text(_) => name == "string",
        Value::Array(_) => name == "array",
        Value::Object(_) => name == "object",
    }
}

/// Whether a text has one of the patterns that the schema uses.
fn matches(text: &str, pattern: &str) -> bool {
    let is_hex = |text: &str| text.bytes().all(|byte| b"0123456789abcdef".contains(&byte));
    match pattern {
        "^[0-9a-f]{64}$" => text.len() == 64 && is_hex(text),
        "^([0-9a-f]{2})+$" => !text.is_empty() && text.len().is_multiple_of(2) && is_hex(text),
        "^[0-9]+\\.[0-9]+$" => {
            let is_number = |part: &str| part.parse::<u32>().is_ok();
            text.split_once('.')
                .is_some_and(|(one, other)| is_number(one) && is_number(other))
        }
        _ => panic!("the pattern {pattern} is unknown"),
    }
}
