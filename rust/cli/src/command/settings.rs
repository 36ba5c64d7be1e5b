//! Finds out whether cargo's settings name a program that runs tests or documentation tests.

use super::cargo::{CargoCommand, values_of};
use super::conditions::holds;
use super::harness::BOOTSTRAP;
use serde_json::{Map, Value};
use std::env;
use std::ffi::OsString;
use std::process::{Command, Output, Stdio};

/// The variables that name a rustdoc.
const RUSTDOC_VARIABLES: [&str; 2] = ["RUSTDOC", "CARGO_BUILD_RUSTDOC"];

/// The variable with which cargo keeps in `target/` what rustc says, unless it is `0`. Later runs of cargo would take what
/// it says for unstable options.
const CACHE: &str = "CARGO_CACHE_RUSTC_INFO";

/// Returns true if a variable or cargo's settings name a rustdoc, or a runner for a target of a command or for a condition
/// that may hold for one. If they cannot be read, returns what is known without them.
pub fn names_other_program(cargo: &CargoCommand) -> bool {
    if RUSTDOC_VARIABLES
        .iter()
        .any(|name| env::var_os(name).is_some())
    {
        return true;
    }
    let settings = settings_of(cargo.before, cargo.own).unwrap_or_default();
    if names_rustdoc(&settings) {
        return true;
    }
    let mut runners = runners_in(&settings);
    runners.extend(runners_of_variables());
    if runners.is_empty() {
        return false;
    }
    let targets = targets_of(cargo, &settings);
    is_for_one(&runners, &targets)
        || has_condition_for_one(&runners, &targets, |target| facts_of(cargo, target))
}

/// The target for which a runner is set.
#[derive(Debug, PartialEq, Eq)]
struct RunnerTarget(String);

impl RunnerTarget {
    /// Returns true for a condition, such as `cfg(unix)`.
    fn is_condition(&self) -> bool {
        self.0.starts_with("cfg(")
    }

    /// Returns true for this target, in the writing of settings or of variables.
    fn is(&self, target: &str) -> bool {
        self.0 == target || self.0 == target.to_ascii_uppercase().replace(['-', '.'], "_")
    }
}

/// Returns true if one of these runners is for one of these targets.
fn is_for_one(runners: &[RunnerTarget], targets: &[String]) -> bool {
    let mut pairs = runners
        .iter()
        .flat_map(|runner| targets.iter().map(move |target| (runner, target)));
    pairs.any(|(runner, target)| runner.is(target))
}

/// Returns true if one of these runners is for a condition, unless the condition does not hold for any of these targets.
/// `facts_of` returns what rustc says of a target, if it says anything.
fn has_condition_for_one(
    runners: &[RunnerTarget],
    targets: &[String],
    facts_of: impl Fn(&str) -> Option<String>,
) -> bool {
    let conditions: Vec<_> = runners.iter().filter(|it| it.is_condition()).collect();
    if conditions.is_empty() || targets.is_empty() {
        return !conditions.is_empty();
    }
    let facts: Vec<_> = targets.iter().map(|target| facts_of(target)).collect();
    let may_hold = |condition: &str, facts: &Option<String>| {
        let found = facts.as_ref().and_then(|facts| holds(condition, facts));
        found.unwrap_or(true)
    };
    let is_used = |runner: &RunnerTarget| facts.iter().any(|facts| may_hold(&runner.0, facts));
    conditions.into_iter().any(is_used)
}

/// Returns the targets whose runner a variable names, as that variable writes them.
fn runners_of_variables() -> Vec<RunnerTarget> {
    let names = env::vars_os().filter_map(|(name, _)| name.into_string().ok());
    names.filter_map(|name| runner_of_variable(&name)).collect()
}

/// Returns the target in the name of a variable that names a runner.
fn runner_of_variable(name: &str) -> Option<RunnerTarget> {
    let target = name
        .strip_prefix("CARGO_TARGET_")?
        .strip_suffix("_RUNNER")?;
    Some(RunnerTarget(target.to_string()))
}

/// Returns the targets and conditions whose runner the settings name.
fn runners_in(settings: &Map<String, Value>) -> Vec<RunnerTarget> {
    let targets = settings.get("target").and_then(Value::as_object);
    let has_runner = |settings: &Value| settings.get("runner").is_some();
    targets
        .into_iter()
        .flatten()
        .filter(|(_, settings)| has_runner(settings))
        .map(|(target, _)| RunnerTarget(target.clone()))
        .collect()
}

/// Returns true if the settings name a rustdoc.
fn names_rustdoc(settings: &Map<String, Value>) -> bool {
    let build = settings.get("build");
    build.and_then(|build| build.get("rustdoc")).is_some()
}

/// Returns the targets for which a command may compile: those that it or the settings name, and this machine.
fn targets_of(cargo: &CargoCommand, settings: &Map<String, Value>) -> Vec<String> {
    let mut targets: Vec<String> = values_of(cargo.own, "--target")
        .into_iter()
        .map(String::from)
        .collect();
    match settings.get("build").and_then(|build| build.get("target")) {
        Some(Value::String(target)) => targets.push(target.clone()),
        Some(Value::Array(list)) => {
            targets.extend(list.iter().filter_map(Value::as_str).map(String::from));
        }
        _ => {}
    }
    targets.extend(env::var("CARGO_BUILD_TARGET").ok());
    targets.extend(host_of(cargo));
    targets
}

/// Returns this machine's target, as cargo names it.
fn host_of(cargo: &CargoCommand) -> Option<String> {
    let output = answer_of(cargo.before, &["-vV"])?;
    let text = String::from_utf8(output.stdout).ok()?;
    let host = text.lines().find_map(|line| line.strip_prefix("host: "))?;
    Some(host.to_string())
}

/// Returns what rustc says of a target, one fact a line, or `None` if it fails. Cargo starts the rustc, as only cargo
/// knows which one is meant: a path in its settings is relative to the folder of the file that has it.
fn facts_of(cargo: &CargoCommand, target: &str) -> Option<String> {
    let mut arguments = config_arguments(cargo.own);
    arguments.extend(["-Z", "unstable-options", "rustc"]);
    if let Some(manifest) = values_of(cargo.own, "--manifest-path").last() {
        arguments.extend(["--manifest-path", manifest]);
    }
    arguments.extend(["--print", "cfg", "--target", target]);
    String::from_utf8(answer_of(cargo.before, &arguments)?.stdout).ok()
}

/// Returns the arguments that give cargo the settings after its subcommand.
pub fn config_arguments(own: &[OsString]) -> Vec<&str> {
    let settings = values_of(own, "--config");
    settings
        .into_iter()
        .flat_map(|setting| ["--config", setting])
        .collect()
}

/// Returns the settings that cargo reads for a command, or `None` if cargo does not say them. `before` is cargo with its
/// arguments before the subcommand, and `own` are those after it.
pub fn settings_of(before: &[OsString], own: &[OsString]) -> Option<Map<String, Value>> {
    let mut arguments = config_arguments(own);
    // Stable versions of cargo have this command, but it may change.
    arguments.extend([
        "-Z",
        "unstable-options",
        "config",
        "get",
        "--format",
        "json",
    ]);
    let output = answer_of(before, &arguments)?;
    serde_json::from_slice(&output.stdout).ok()
}

/// Runs the same cargo, with its arguments before the subcommand, for something else. Returns `None` if that fails.
pub fn answer_of(before: &[OsString], arguments: &[&str]) -> Option<Output> {
    let (program, before) = before.split_first()?;
    let mut command = Command::new(program);
    command
        .args(before)
        .args(arguments)
        .env(BOOTSTRAP, "1")
        .env(CACHE, "0")
        .stdin(Stdio::null())
        .stderr(Stdio::null());
    let output = command.output().ok()?;
    output.status.success().then_some(output)
}

#[cfg(test)]
mod tests {
    use super::*;

    /// Returns the settings in a text of JSON.
    fn settings(text: &str) -> Map<String, Value> {
        serde_json::from_str(text).expect("the text is an object")
    }

    /// Returns runners for these targets.
    fn runners<const N: usize>(targets: [&str; N]) -> Vec<RunnerTarget> {
        targets.map(|it| RunnerTarget(it.to_string())).into()
    }

    #[test]
    fn a_runner_is_a_setting_of_a_target() {
        let text = r#"{"build":{"target":"t","jobs":1},"target":{"cfg(unix)":{"runner":"a b"},"t":{"linker":"l"},
            "x86_64-unknown-linux-gnu":{"runner":["a","b"]}}}"#;
        let found = runners_in(&settings(text));
        assert_eq!(found, runners(["cfg(unix)", "x86_64-unknown-linux-gnu"]));
        assert!(found[0].is_condition() && !found[1].is_condition());
        assert!(!names_rustdoc(&settings(text)));
        assert_eq!(runners_in(&Map::new()), []);
    }

    #[test]
    fn a_rustdoc_is_a_setting_of_the_build() {
        assert!(names_rustdoc(&settings(r#"{"build":{"rustdoc":"a"}}"#)));
        assert!(!names_rustdoc(&settings(r#"{"rustdoc":"a"}"#)));
    }

    #[test]
    fn variables_name_runners_of_targets() {
        let found = runner_of_variable("CARGO_TARGET_X86_64_UNKNOWN_LINUX_GNU_RUNNER");
        let found = found.expect("the variable names a runner");
        assert!(found.is("x86_64-unknown-linux-gnu") && !found.is("x86_64-unknown-linux-musl"));
        assert_eq!(runner_of_variable("CARGO_TARGET_X86_64_LINKER"), None);
        assert_eq!(runner_of_variable("CARGO_TARGET_DIR"), None);
    }

    #[test]
    fn a_runner_of_another_target_is_not_used() {
        let targets = ["wasm32-wasip1", "aarch64-apple-darwin"].map(String::from);
        assert!(is_for_one(&runners(["a", "wasm32-wasip1"]), &targets));
        assert!(!is_for_one(&runners(["wasm32-wasip2"]), &targets));
        assert!(!is_for_one(&[], &targets));
    }

    #[test]
    fn a_runner_of_a_condition_is_used_if_the_condition_may_hold() {
        let targets = ["thumbv7em-none-eabi", "x86_64-unknown-linux-gnu"].map(String::from);
        let facts_of = |target: &str| {
            let of_linux = target
                .contains("linux")
                .then_some("unix\ntarget_os=\"linux\"\n");
            Some(of_linux.unwrap_or("target_os=\"none\"\n").to_string())
        };
        let is_used = |condition| has_condition_for_one(&runners([condition]), &targets, facts_of);
        for condition in [
            "cfg(unix)",
            "cfg(target_os = \"none\")",
            "cfg(all())",
            "cfg(mine)",
            "cfg(what?)",
        ] {
            assert!(is_used(condition), "{condition}");
        }
        for other in [
            "cfg(windows)",
            "cfg(target_arch = \"wasm32\")",
            "thumbv7em-none-eabi",
        ] {
            assert!(!is_used(other), "{other}");
        }
        let windows = runners(["cfg(windows)"]);
        assert!(
            has_condition_for_one(&windows, &targets, |_| None),
            "rustc says nothing"
        );
        assert!(
            has_condition_for_one(&windows, &[], |_| None),
            "no target is known"
        );
        assert!(
            !has_condition_for_one(&runners(["a"]), &[], |_| None),
            "there is no condition"
        );
    }

    #[test]
    fn rustc_says_what_a_target_is() {
        let manifest = concat!(
            "--manifest-path=",
            env!("CARGO_MANIFEST_DIR"),
            "/Cargo.toml"
        );
        let words = ["cargo", "test", "--config", "build.jobs=1", manifest].map(Into::into);
        let cargo = CargoCommand::of(&words).expect("the command runs tests");
        let facts = facts_of(&cargo, "wasm32-unknown-unknown").expect("rustc knows it");
        assert_eq!(holds("cfg(target_arch = \"wasm32\")", &facts), Some(true));
        assert_eq!(holds("cfg(unix)", &facts), Some(false));
        assert_eq!(facts_of(&cargo, "no-such-target"), None);
    }

    #[test]
    fn the_targets_are_those_of_the_command_the_settings_and_the_machine() {
        let words = ["cargo", "test", "--target", "a", "--target=b"].map(Into::into);
        let cargo = CargoCommand::of(&words).expect("the command runs tests");
        let found = targets_of(&cargo, &settings(r#"{"build":{"target":["c","d"]}}"#));
        assert_eq!(found[..4], ["a", "b", "c", "d"]);
        assert!(found.len() > 4, "{found:?}");
        let found = targets_of(&cargo, &settings(r#"{"build":{"target":"c"}}"#));
        assert_eq!(found[..3], ["a", "b", "c"]);
    }
}
