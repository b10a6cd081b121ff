//! The files of examples/, and programs of the shell.
use std::fs;
use std::os::unix::fs::PermissionsExt;
use std::path::{Path, PathBuf};
use std::sync::atomic::{AtomicU32, Ordering};

pub fn examples() -> PathBuf {
    Path::new(env!("CARGO_MANIFEST_DIR")).join("../../examples")
}

pub fn example(name: &str) -> String {
    fs::read_to_string(examples().join(name)).expect(name)
}

/// A program of the shell.
pub fn program_of(text: &str) -> PathBuf {
    static MADE: AtomicU32 = AtomicU32::new(0);
    let number = MADE.fetch_add(1, Ordering::Relaxed);
    let file = Path::new(env!("CARGO_TARGET_TMPDIR")).join(format!("cepage-{}-{number}", std::process::id()));
    // A program that is still open for writing in any process can't be started, and a test beside this one may fork: so it
    // is written by the shell.
    let write = "printf '#!/bin/sh\\n%s\\n' \"$1\" > \"$0\"";
    let done = std::process::Command::new("sh").arg("-c").arg(write).arg(&file).arg(text).status();
    assert!(done.is_ok_and(|it| it.success()));
    fs::set_permissions(&file, fs::Permissions::from_mode(0o700)).expect("a mode");
    file
}

/// The message with which a call panics.
pub fn told(call: impl FnOnce() + std::panic::UnwindSafe) -> String {
    let failed = std::panic::catch_unwind(call).expect_err("it fails nothing");
    *failed.downcast::<String>().expect("a message")
}
