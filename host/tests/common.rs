//! What several modules of the tests use. Benchmarks take single files of it.

pub mod breakfast;
mod choose;
pub mod for_original;
pub mod long;
pub mod original;
pub mod random;
pub mod tally;

use std::path::{Path, PathBuf};
use std::process::Command;

/// The largest magnitude of a sample.
pub const FULL: f32 = 65_536.0;

/// The longest block.
pub const LONGEST: usize = 1_024;

/// The repository's root.
pub fn root() -> PathBuf {
    Path::new(env!("CARGO_MANIFEST_DIR")).join("..")
}

/// On a processor other than x86-64 `tools/host` names a compiler for it and an emulator.
pub fn named(variable: &str) -> Option<String> {
    std::env::var(variable).ok().filter(|name| !name.is_empty())
}

/// A compiled program, to be run.
pub fn program(path: impl AsRef<Path>) -> Command {
    match named("CARGO_TARGET_X86_64_UNKNOWN_LINUX_GNU_RUNNER") {
        Some(emulator) => {
            let mut command = Command::new(emulator);
            command.arg(path.as_ref());
            command
        }
        None => Command::new(path.as_ref()),
    }
}
