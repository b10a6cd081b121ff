//! Another folder is gone to, which a process has one of: so this test has a process of its own.
use cepage::Options;
use std::os::unix::fs::PermissionsExt;
use std::path::Path;
use std::{env, fs};

#[test]
fn the_program_is_found_from_another_folder() {
    let folder = Path::new(env!("CARGO_TARGET_TMPDIR"));
    let write = "printf '#!/bin/sh\\ncat > /dev/null; echo \"1: #2\"\\n' > \"$0/here\"";
    assert!(std::process::Command::new("sh").arg("-c").arg(write).arg(folder).status().is_ok_and(|it| it.success()));
    fs::set_permissions(folder.join("here"), fs::Permissions::from_mode(0o700)).unwrap();
    env::set_current_dir(folder).unwrap();
    let given = Options::new().program("./here").run("create $a p").unwrap();
    let mut page = Options::new().program("./here").session().unwrap();
    env::set_var("CEPAGE", "./here");
    let named = Options::new().without_library().run("create $a p").unwrap();
    env::set_current_dir("/").unwrap();
    env::set_var("CEPAGE", "/nowhere");
    for came in [given, named] {
        assert_eq!(came.traced().unwrap().bytes(), came.bytes());
        assert!(!came.command(1).to_string().contains("no trace"));
    }
    assert!(page.command("").is_ok() && page.close().is_ok());
    assert!(Options::new().without_library().run("").is_err());
}
