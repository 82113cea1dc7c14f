//! A tiny JSON writer: each function gives a value's text.

/// Quoted, with every character escaped that JSON or a page of HTML would take for its own.
pub fn text(value: &str) -> String {
    let mut out = String::from("\"");
    for character in value.chars() {
        match character {
            '"' | '\\' | '<' | '>' | '&' | '\u{0}'..='\u{1f}' | '\u{7f}'..='\u{9f}' | '\u{2028}' | '\u{2029}' => {
                out.push_str(&format!("\\u{:04x}", u32::from(character)))
            }
            _ => out.push(character),
        }
    }
    out.push('"');
    out
}

pub fn list<T: ToString>(items: impl IntoIterator<Item = T>) -> String {
    format!("[{}]", joined(items.into_iter().map(|item| item.to_string())))
}

/// The values are JSON already.
pub fn object(fields: &[(&str, String)]) -> String {
    format!("{{{}}}", joined(fields.iter().map(|(name, value)| format!("{}:{value}", text(name)))))
}

/// `null` for none.
pub fn option<T: ToString>(value: Option<T>) -> String {
    value.map_or(String::from("null"), |value| value.to_string())
}

fn joined(items: impl Iterator<Item = String>) -> String {
    items.collect::<Vec<String>>().join(",")
}

#[cfg(test)]
mod tests {
    use super::*;

    #[test]
    fn a_name_cannot_end_its_quotes() {
        assert_eq!(text("a\"b\\c\n<é>"), "\"a\\u0022b\\u005cc\\u000a\\u003cé\\u003e\"");
    }

    #[test]
    fn values_are_put_together() {
        let fields = [("page", 7.to_string()), ("slots", list([1, 2])), ("writer", option(None::<u32>))];
        assert_eq!(object(&fields), r#"{"page":7,"slots":[1,2],"writer":null}"#);
        assert_eq!(list::<u32>([]), "[]");
    }
}
