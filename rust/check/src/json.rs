//! JSON, as far as it is written here.

pub const NULL: &str = "null";

/// An object of values that are JSON.
pub fn object(fields: &[(&str, String)]) -> String {
    let fields: Vec<String> = fields
        .iter()
        .map(|(name, value)| format!("{}:{}", string(name), value))
        .collect();
    format!("{{{}}}", fields.join(","))
}

pub fn string(text: &str) -> String {
    let mut quoted = String::from("\"");
    for ch in text.chars() {
        match ch {
            '"' | '\\' => quoted.extend(['\\', ch]),
            '\0'..='\u{1f}' => quoted += &format!("\\u{:04x}", u32::from(ch)),
            _ => quoted.push(ch),
        }
    }
    quoted + "\""
}

#[cfg(test)]
mod tests {
    use super::*;

    #[test]
    fn what_a_string_may_not_have_is_escaped() {
        assert_eq!(string("a\"\\\n\u{e9}"), "\"a\\\"\\\\\\u000a\u{e9}\"");
    }
}
