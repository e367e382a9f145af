//! What can't be built is told in one sentence, and leaves no library.
use std::fs;
use std::path::{Path, PathBuf};
use std::process::Command;

const HERE: &str = env!("CARGO_MANIFEST_DIR");

/// Builds the crate of a folder, and answers what its build script says at its end.
fn built(folder: &Path, target: &Path, arguments: &[&str], variables: &[(&str, &str)]) -> String {
    let ended = Command::new(env!("CARGO"))
        .args(["build", "--offline", "--target-dir"])
        .arg(target)
        .args(arguments)
        .current_dir(folder)
        .env_remove("SELLUMAQ_LIB")
        .env_remove("SELLUMAQ_SHARED")
        .envs(variables.iter().copied())
        .output()
        .unwrap();
    assert!(!ended.status.success());
    let told = String::from_utf8_lossy(&ended.stderr);
    told.lines()
        .find_map(|line| line.trim().strip_prefix("sellumaq-sys: "))
        .unwrap_or(&told)
        .to_owned()
}

/// Whether a file of this name stands anywhere in a folder.
fn holds(folder: &Path, name: &str) -> bool {
    fs::read_dir(folder).unwrap().any(|entry| {
        let path = entry.unwrap().path();
        path.file_name().unwrap() == name || path.is_dir() && holds(&path, name)
    })
}

fn empty_folder(name: &str) -> PathBuf {
    let folder = Path::new(env!("CARGO_TARGET_TMPDIR")).join(name);
    drop(fs::remove_dir_all(&folder));
    fs::create_dir_all(&folder).unwrap();
    folder
}

#[test]
fn a_missing_tool_and_another_target() {
    let target = empty_folder("tools");
    let none = "/nowhere/none";
    let missing = |kind: &str, variable: &str| {
        format!("there is no {kind} named {none}: install one, or name it by {variable}.")
    };
    let tools = [
        ("CC", "C compiler"),
        ("LD", "linker"),
        ("OBJCOPY", "program that hides names"),
        ("AR", "archiver"),
    ];
    for (variable, kind) in tools {
        let told = built(Path::new(HERE), &target, &[], &[(variable, none)]);
        assert_eq!(told, missing(kind, variable));
    }
    for (variable, value, sentence) in [
        ("CC", "false", "false fails, and no library is built."),
        (
            "SELLUMAQ_LIB",
            "/nowhere",
            "SELLUMAQ_LIB is /nowhere, where no libsellumaq.a is.",
        ),
    ] {
        let told = built(Path::new(HERE), &target, &[], &[(variable, value)]);
        assert_eq!(told, sentence);
    }
    let other = ["--target", "aarch64-unknown-linux-gnu"];
    assert_eq!(
        built(Path::new(HERE), &target, &other, &[]),
        "the compiled text is for x86-64, Linux and glibc, and the target is aarch64-unknown-linux-gnu."
    );
    assert!(!holds(&target, "libsellumaq.a"));
}

#[test]
fn a_missing_text() {
    let (target, copy) = (empty_folder("text"), empty_folder("copy"));
    fs::create_dir(copy.join("src")).unwrap();
    for name in ["build.rs", "src/lib.rs"] {
        fs::copy(Path::new(HERE).join(name), copy.join(name)).unwrap();
    }
    let manifest = fs::read_to_string(format!("{HERE}/Cargo.toml")).unwrap();
    fs::write(copy.join("Cargo.toml"), manifest + "[workspace]\n").unwrap();
    assert_eq!(
        built(&copy, &target, &[], &[]),
        "compiled/sellumaq.s is neither in the crate nor in a repository around it."
    );
    assert!(!holds(&target, "libsellumaq.a"));
}
