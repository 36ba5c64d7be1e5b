//! Cargo's aliases: subcommands that stand for others.

use super::cargo::subcommand_at;
use super::settings::settings_of;
use serde_json::{Map, Value};
use std::env;
use std::ffi::OsString;

/// The beginning of the names of variables that define aliases.
const VARIABLE: &str = "CARGO_ALIAS_";

/// Subcommands that run tests and are not looked up.
const NO_ALIASES: [&str; 3] = ["test", "bench", "nextest"];

/// Returns a command of cargo without aliases, as cargo finds them: in variables and in its settings. Returns another
/// command as it is.
pub fn without_aliases(words: &[OsString]) -> Vec<OsString> {
    let mut words = words.to_vec();
    let mut seen = Vec::new();
    while let Some(at) = subcommand_at(&words)
        && let Some(name) = words[at].to_str().map(String::from)
        && !NO_ALIASES.contains(&name.as_str())
        && !seen.contains(&name)
        && let Some(alias) = alias_of(&name, &words[..at])
    {
        words.splice(at..=at, alias);
        seen.push(name);
    }
    words
}

/// Returns the words for which an alias stands, if there is one. `before` is cargo with its own arguments.
fn alias_of(name: &str, before: &[OsString]) -> Option<Vec<OsString>> {
    let variable = VARIABLE.to_string() + &name.to_uppercase().replace('-', "_");
    match env::var(variable) {
        Ok(text) => Some(words_of(&text)),
        Err(_) => alias_in(&settings_of(before, &[])?, name),
    }
}

/// Returns the words for which the settings say that an alias stands.
fn alias_in(settings: &Map<String, Value>, name: &str) -> Option<Vec<OsString>> {
    match settings.get("alias")?.get(name)? {
        Value::String(text) => Some(words_of(text)),
        Value::Array(list) => list
            .iter()
            .map(|word| word.as_str().map(OsString::from))
            .collect(),
        Value::Null | Value::Bool(_) | Value::Number(_) | Value::Object(_) => None,
    }
}

/// Returns the words of a text.
fn words_of(text: &str) -> Vec<OsString> {
    text.split_whitespace().map(OsString::from).collect()
}

#[cfg(test)]
mod tests {
    use super::*;

    #[test]
    fn an_alias_is_a_text_or_a_list() {
        let text = r#"{"alias":{"ta":"test  --lib","tb":["test","a b"],"tc":1,"td":["test",1]}}"#;
        let settings = serde_json::from_str(text).expect("the text is an object");
        let alias = |name| alias_in(&settings, name);
        assert_eq!(alias("ta"), Some(words_of("test --lib")));
        assert_eq!(alias("tb"), Some(vec!["test".into(), "a b".into()]));
        for name in ["tc", "td", "te"] {
            assert_eq!(alias(name), None, "{name}");
        }
        assert_eq!(alias_in(&Map::new(), "ta"), None);
    }

    #[test]
    fn other_commands_stay_as_they_are() {
        for command in [
            "",
            "make test",
            "cargo",
            "cargo test ta",
            "cargo --no-such-option ta",
        ] {
            assert_eq!(without_aliases(&words_of(command)), words_of(command));
        }
    }
}
