//! A C program is compiled against the header and linked with the library, as a hub does, and run.

use std::path::{Path, PathBuf};
use std::process::Command;

use crate::common::{named, program, root};

#[test]
fn a_c_program_uses_the_door() {
    let door = PathBuf::from(env!("CARGO_TARGET_TMPDIR")).join("door");
    let compiler = named("CARGO_TARGET_X86_64_UNKNOWN_LINUX_GNU_LINKER").unwrap_or("cc".into());
    let compiled = Command::new(compiler)
        .args([
            "-std=c11",
            "-Wall",
            "-Wextra",
            "-Werror",
            "-pedantic",
            "-O1",
        ])
        .arg("-I")
        .arg(root().join("include"))
        .arg(root().join("host/tests/c/door.c"))
        .arg(Path::new(env!("FALLOWCART_LIBRARY")).join("libfallowcart.a"))
        .arg("-pthread")
        .arg("-o")
        .arg(&door)
        .output()
        .expect("a C compiler");
    let said = String::from_utf8_lossy(&compiled.stderr);
    assert!(compiled.status.success(), "{said}");

    let ran = program(&door).output().expect("the program runs");
    let said = String::from_utf8_lossy(&ran.stderr);
    assert!(ran.status.success(), "{said}");
    assert_eq!(String::from_utf8_lossy(&ran.stdout), "106 facts held\n");
}
