//! Answers for programs.

use std::fmt;

#[derive(Clone, Debug, PartialEq)]
pub enum Json {
    None,
    Yes(bool),
    Number(u64),
    Float(f64),
    Text(String),
    List(Vec<Json>),
    Object(Vec<(&'static str, Json)>),
}

impl From<u32> for Json {
    fn from(number: u32) -> Json {
        Json::Number(number.into())
    }
}

impl From<usize> for Json {
    fn from(number: usize) -> Json {
        Json::Number(number as u64)
    }
}

impl From<bool> for Json {
    fn from(yes: bool) -> Json {
        Json::Yes(yes)
    }
}

impl From<&str> for Json {
    fn from(text: &str) -> Json {
        Json::Text(text.to_string())
    }
}

impl From<String> for Json {
    fn from(text: String) -> Json {
        Json::Text(text)
    }
}

impl<T: Into<Json>> From<Option<T>> for Json {
    fn from(held: Option<T>) -> Json {
        held.map_or(Json::None, Into::into)
    }
}

impl<T: Into<Json>> From<Vec<T>> for Json {
    fn from(list: Vec<T>) -> Json {
        Json::List(list.into_iter().map(Into::into).collect())
    }
}

impl fmt::Display for Json {
    fn fmt(&self, to: &mut fmt::Formatter<'_>) -> fmt::Result {
        match self {
            Json::None => to.write_str("null"),
            Json::Yes(yes) => yes.fmt(to),
            Json::Number(number) => number.fmt(to),
            Json::Float(float) => float.fmt(to),
            Json::Text(text) => quoted(text, to),
            Json::List(list) => {
                to.write_str("[")?;
                for (at, item) in list.iter().enumerate() {
                    to.write_str(if at == 0 { "" } else { ", " })?;
                    item.fmt(to)?;
                }
                to.write_str("]")
            }
            Json::Object(fields) => {
                to.write_str("{")?;
                for (at, (name, held)) in fields.iter().enumerate() {
                    to.write_str(if at == 0 { "" } else { ", " })?;
                    quoted(name, to)?;
                    write!(to, ": {held}")?;
                }
                to.write_str("}")
            }
        }
    }
}

fn quoted(text: &str, to: &mut fmt::Formatter<'_>) -> fmt::Result {
    to.write_str("\"")?;
    for letter in text.chars() {
        match letter {
            '"' => to.write_str("\\\"")?,
            '\\' => to.write_str("\\\\")?,
            letter if u32::from(letter) < 32 => write!(to, "\\u{:04x}", u32::from(letter))?,
            letter => write!(to, "{letter}")?,
        }
    }
    to.write_str("\"")
}

#[cfg(test)]
mod tests {
    use super::Json;

    #[test]
    fn what_is_written() {
        let object = Json::Object(vec![
            ("text", "a \"b\" \\ \n".into()),
            ("list", vec![1_u32, 2].into()),
            ("none", Json::None),
            ("half", Json::Float(0.5)),
            ("whole", Json::Float(2.0)),
            ("yes", true.into()),
        ]);
        assert_eq!(
            object.to_string(),
            r#"{"text": "a \"b\" \\ \u000a", "list": [1, 2], "none": null, "half": 0.5, "whole": 2, "yes": true}"#
        );
    }
}
