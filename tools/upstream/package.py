"""The package that runs test functions over the crate, and the results that cargo reports."""

import re
import shutil
import subprocess
import tempfile
from pathlib import Path

TOP = Path(__file__).resolve().parent.parent.parent
CRATE = TOP / "rust" / "deodarsieve"
TARGET = TOP / "rust" / "target" / "upstream-tests"
CARGO = TOP / "tools" / "cargo"
MANIFEST = f"""\
[package]
name = "upstream-tests"
version = "0.0.0"
edition = "2024"
publish = false

[dependencies]
bytes = "1"
chrono = {{ version = "0.4", default-features = false, features = ["clock"] }}
deodarsieve = {{ path = '{CRATE}', features = ["chrono", "serde"] }}
serde_json = "1"

[workspace]
"""
HEAD = """\
#![cfg(test)]
mod adapters;
"""
HERE = Path(__file__).parent
HAND_WRITTEN = (HERE / "adapters.rs", HERE / "snapshots.txt", CRATE / "SEMVER.md")
LINE = re.compile(r"^test (\S+) \.\.\. (ok|FAILED)$", re.MULTILINE)


def write_package(folder, text):
    """Writes the package with the text of test functions into a folder."""
    (folder / "src").mkdir()
    (folder / "Cargo.toml").write_text(MANIFEST, encoding="utf-8")
    (folder / "src" / "lib.rs").write_text(HEAD + text, encoding="utf-8")
    for path in HAND_WRITTEN:
        shutil.copy(path, folder / "src" / path.name)


def run_tests(text, configs):
    """Runs test functions, and returns whether each passed, by its name, and what cargo says.

    The files `configs` are cargo's configuration, such as where it finds packages.
    """
    options = [word for config in configs for word in ("--config", str(config))]
    with tempfile.TemporaryDirectory() as name:
        folder = Path(name)
        write_package(folder, text)
        options += ["--target-dir", str(TARGET), "--manifest-path", str(folder / "Cargo.toml")]
        ended = subprocess.run(
            [CARGO, "test", "--jobs", "2", *options],
            stdout=subprocess.PIPE,
            stderr=subprocess.STDOUT,
            check=False,
        )
    said = ended.stdout.decode("utf-8", "replace")
    return {name: state == "ok" for name, state in LINE.findall(said)}, said
