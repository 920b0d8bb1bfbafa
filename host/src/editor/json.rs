//! JSON, as far as the editor writes it.

use std::fmt;

pub enum Json {
    Null,
    Bool(bool),
    /// A number as it is to be written.
    Number(String),
    Text(String),
    List(Vec<Json>),
    Object(Vec<(&'static str, Json)>),
}

impl Json {
    pub fn number(n: u64) -> Json {
        Json::Number(n.to_string())
    }

    /// A double; JSON has no word for those that are not finite.
    pub fn float(x: f64) -> Json {
        match x.is_finite() {
            true => Json::Number(format!("{x:?}")),
            false => Json::Text(format!("{x}")),
        }
    }

    pub fn text(t: impl fmt::Display) -> Json {
        Json::Text(t.to_string())
    }

    pub fn list<T>(items: impl IntoIterator<Item = T>, of: impl Fn(T) -> Json) -> Json {
        Json::List(items.into_iter().map(of).collect())
    }

    pub fn option<T>(item: Option<T>, of: impl Fn(T) -> Json) -> Json {
        item.map_or(Json::Null, of)
    }
}

impl fmt::Display for Json {
    fn fmt(&self, f: &mut fmt::Formatter<'_>) -> fmt::Result {
        match self {
            Json::Null => f.write_str("null"),
            Json::Bool(b) => write!(f, "{b}"),
            Json::Number(n) => f.write_str(n),
            Json::Text(t) => quoted(f, t),
            Json::List(items) => {
                f.write_str("[")?;
                for (i, item) in items.iter().enumerate() {
                    write!(f, "{}{item}", comma(i))?;
                }
                f.write_str("]")
            }
            Json::Object(fields) => {
                f.write_str("{")?;
                for (i, (name, value)) in fields.iter().enumerate() {
                    write!(f, "{}\"{name}\":{value}", comma(i))?;
                }
                f.write_str("}")
            }
        }
    }
}

fn comma(place: usize) -> &'static str {
    if place == 0 { "" } else { "," }
}

fn quoted(f: &mut fmt::Formatter<'_>, text: &str) -> fmt::Result {
    f.write_str("\"")?;
    for c in text.chars() {
        match c {
            '"' | '\\' => write!(f, "\\{c}")?,
            c if (c as u32) < 0x20 => write!(f, "\\u{:04x}", c as u32)?,
            c => write!(f, "{c}")?,
        }
    }
    f.write_str("\"")
}
