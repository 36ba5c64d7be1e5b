//! Decides whether a condition in cargo's settings, such as `cfg(unix)`, holds for a target.

/// The keys whose values follow from the target alone. Settings of cargo and variables can change other ones.
const KEYS_OF_TARGETS: [&str; 8] = [
    "target_abi",
    "target_arch",
    "target_endian",
    "target_env",
    "target_family",
    "target_os",
    "target_pointer_width",
    "target_vendor",
];

/// The names that follow from the target alone.
const NAMES_OF_TARGETS: [&str; 2] = ["unix", "windows"];

/// Returns whether a condition holds for a target, or `None` if the target alone does not decide it, or if this program
/// does not understand the condition. `facts` are the lines that `rustc --print cfg` writes for the target, such as
/// `unix` and `target_os="linux"`.
pub fn holds(condition: &str, facts: &str) -> Option<bool> {
    let inner = condition.strip_prefix("cfg(")?.strip_suffix(')')?;
    let mut reader = Reader { rest: inner, facts };
    let found = reader.predicate()?;
    reader.rest.trim().is_empty().then_some(found)?
}

/// A part of a condition that is not read yet, and what is known of the target.
///
/// Each call returns `None` if it cannot read on. What is read is a value of three: true, false, or `None` for unknown.
struct Reader<'a> {
    rest: &'a str,
    facts: &'a str,
}

impl<'a> Reader<'a> {
    /// Reads `all(..)`, `any(..)`, `not(..)`, `NAME` or `NAME = "VALUE"`.
    fn predicate(&mut self) -> Option<Option<bool>> {
        let name = self.name()?;
        if self.takes("(") {
            let list = self.list()?;
            return match name {
                "all" => Some(all(&list)),
                "any" => Some(any(&list)),
                "not" if list.len() == 1 => Some(list[0].map(|holds| !holds)),
                _ => None,
            };
        }
        if self.takes("=") {
            let value = self.value()?;
            let is_known = KEYS_OF_TARGETS.contains(&name);
            return Some(is_known.then(|| self.is_fact(&format!("{name}=\"{value}\""))));
        }
        let is_known = NAMES_OF_TARGETS.contains(&name);
        Some(is_known.then(|| self.is_fact(name)))
    }

    /// Reads conditions with commas between them, up to the closing parenthesis.
    fn list(&mut self) -> Option<Vec<Option<bool>>> {
        let mut list = Vec::new();
        while !self.takes(")") {
            list.push(self.predicate()?);
            if !self.takes(",") {
                return self.takes(")").then_some(list);
            }
        }
        Some(list)
    }

    /// Reads a name.
    fn name(&mut self) -> Option<&'a str> {
        self.rest = self.rest.trim_start();
        let is_in_name = |c: char| c.is_ascii_alphanumeric() || c == '_';
        let end = self.rest.find(|c| !is_in_name(c));
        let (name, rest) = self.rest.split_at(end.unwrap_or(self.rest.len()));
        self.rest = rest;
        (!name.is_empty()).then_some(name)
    }

    /// Reads a text between quotes.
    fn value(&mut self) -> Option<&'a str> {
        let (value, rest) = self.rest.trim_start().strip_prefix('"')?.split_once('"')?;
        self.rest = rest;
        Some(value)
    }

    /// Returns true if a token is next, and reads it.
    fn takes(&mut self, token: &str) -> bool {
        let found = self.rest.trim_start().strip_prefix(token);
        self.rest = found.unwrap_or(self.rest);
        found.is_some()
    }

    /// Returns true if the target has this name, or this name with this value.
    fn is_fact(&self, fact: &str) -> bool {
        self.facts.lines().any(|line| line == fact)
    }
}

/// Returns false if a value is false, or else `None` if one is unknown, or else true.
fn all(list: &[Option<bool>]) -> Option<bool> {
    if list.contains(&Some(false)) {
        return Some(false);
    }
    (!list.contains(&None)).then_some(true)
}

/// Returns true if a value is true, or else `None` if one is unknown, or else false.
fn any(list: &[Option<bool>]) -> Option<bool> {
    if list.contains(&Some(true)) {
        return Some(true);
    }
    (!list.contains(&None)).then_some(false)
}

#[cfg(test)]
mod tests {
    use super::*;

    const LINUX: &str = "debug_assertions\ntarget_arch=\"x86_64\"\ntarget_feature=\"sse2\"\ntarget_os=\"linux\"\n\
                         target_pointer_width=\"64\"\nunix\n";

    /// Asserts what is decided of conditions for Linux.
    fn assert_holds<const N: usize>(conditions: [&str; N], wanted: Option<bool>) {
        for condition in conditions {
            assert_eq!(holds(condition, LINUX), wanted, "{condition}");
        }
    }

    #[test]
    fn a_condition_is_a_name_or_a_name_with_a_value() {
        let yes = [
            "cfg(unix)",
            "cfg( unix )",
            "cfg(target_os=\"linux\")",
            "cfg(target_arch = \"x86_64\")",
        ];
        assert_holds(yes, Some(true));
        let no = [
            "cfg(windows)",
            "cfg(target_os = \"none\")",
            "cfg(target_os=\"lin\")",
            "cfg(target_env = \"gnu\")",
        ];
        assert_holds(no, Some(false));
    }

    #[test]
    fn conditions_are_joined() {
        let arm = "cfg(all(target_arch = \"arm\", target_os = \"none\"))";
        assert_holds([arm], Some(false));
        assert_eq!(
            holds(arm, "target_arch=\"arm\"\ntarget_os=\"none\"\n"),
            Some(true)
        );
        assert_holds(
            [
                "cfg(all())",
                "cfg(any(windows, unix))",
                "cfg(not(windows))",
                "cfg(all(unix, not(any(windows)),))",
            ],
            Some(true),
        );
        assert_holds(
            [
                "cfg(any())",
                "cfg(all(unix, windows))",
                "cfg(any(windows, windows))",
                "cfg(not(unix))",
            ],
            Some(false),
        );
    }

    #[test]
    fn what_settings_and_variables_can_change_is_unknown() {
        let unknown = [
            "cfg(debug_assertions)",
            "cfg(feature = \"x\")",
            "cfg(target_feature = \"sse2\")",
            "cfg(target_feature = \"avx512f\")",
            "cfg(true)",
            "cfg(not(false))",
            "cfg(target_os)",
            "cfg(all(unix, mine))",
            "cfg(any(windows, mine))",
            "cfg(not(mine))",
        ];
        assert_holds(unknown, None);
        assert_holds(
            ["cfg(any(unix, mine))", "cfg(not(all(windows, mine)))"],
            Some(true),
        );
        assert_holds(
            ["cfg(all(windows, mine2))", "cfg(not(any(unix, mine)))"],
            Some(false),
        );
    }

    #[test]
    fn what_is_no_condition_is_unknown() {
        let others = [
            "unix",
            "cfg(unix",
            "cfg()",
            "cfg(unix windows)",
            "cfg(not(unix, unix))",
            "cfg(some(unix))",
            "cfg(target_os = linux)",
            "cfg(all(unix)",
            "cfg(target_os = \"linux)",
            "cfg(r#unix)",
        ];
        assert_holds(others, None);
    }
}
