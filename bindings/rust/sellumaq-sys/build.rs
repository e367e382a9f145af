//! Builds libsellumaq from its compiled text, `compiled/sellumaq.s` and `compiled/system.c`, and from `files.c`, which
//! saves arrays, and `unsorted.c`, which sorts lists, and links it statically. A C compiler and binutils are all that
//! it needs.
//!
//! What it reads of the environment:
//!
//! - `SELLUMAQ_LIB=FOLDER`: links the `libsellumaq.a` of that folder instead.
//! - `SELLUMAQ_SHARED=1`: links the shared library that pkg-config finds instead. A program finds it by `ldconfig` or
//!   `LD_LIBRARY_PATH` as it runs. `SELLUMAQ_LIB` goes before this.
//! - `CC`, `LD`, `OBJCOPY`, `AR`: the tools that build it, where they aren't `cc`, `ld`, `objcopy` and `ar`. A variable
//!   may hold arguments too, as in `CC="ccache gcc"`; and one that ends in the target's name, such as
//!   `CC_x86_64-unknown-linux-gnu`, goes before the plain one.
//!
//! Where it can't go on it says why in one sentence, and leaves no library.
use std::env;
use std::fs;
use std::io::ErrorKind;
use std::path::Path;
use std::process::{exit, Command};

/// What was done, or a sentence for the user that says why it wasn't.
type Done<T> = Result<T, String>;

fn main() {
    println!("cargo:rerun-if-changed=build.rs");
    let linked = match (variable("SELLUMAQ_LIB"), variable("SELLUMAQ_SHARED")) {
        (Some(folder), _) => find_archive(&folder).map(|()| link_archive(&folder)),
        (None, Some(wanted)) if wanted != "0" => link_shared(),
        _ => build(&told("OUT_DIR")).map(|()| link_archive(&told("OUT_DIR"))),
    };
    if let Err(sentence) = linked {
        eprintln!("sellumaq-sys: {sentence}.");
        exit(1);
    }
}

/// A variable of the environment that is set and not empty. Cargo runs this program again when it changes.
fn variable(name: &str) -> Option<String> {
    println!("cargo:rerun-if-env-changed={name}");
    env::var(name).ok().filter(|value| !value.is_empty())
}

/// What cargo tells by a variable.
fn told(name: &str) -> String {
    env::var(name).unwrap_or_default()
}

fn find_archive(folder: &str) -> Done<()> {
    println!("cargo:rerun-if-changed={folder}/libsellumaq.a");
    if Path::new(folder).join("libsellumaq.a").is_file() {
        return Ok(());
    }
    Err(format!(
        "SELLUMAQ_LIB is {folder}, where no libsellumaq.a is"
    ))
}

fn link_archive(folder: &str) {
    println!("cargo:rustc-link-search=native={folder}");
    println!("cargo:rustc-link-lib=static=sellumaq");
}

fn link_shared() -> Done<()> {
    variable("PKG_CONFIG_PATH");
    let told = Command::new("pkg-config")
        .args(["--libs-only-L", "sellumaq"])
        .output()
        .map_err(|_| "SELLUMAQ_SHARED is set, and pkg-config can't be run to find libsellumaq")?;
    if !told.status.success() {
        return Err("SELLUMAQ_SHARED is set, and pkg-config finds no sellumaq.pc".to_owned());
    }
    for word in String::from_utf8_lossy(&told.stdout).split_whitespace() {
        if let Some(folder) = word.strip_prefix("-L") {
            println!("cargo:rustc-link-search=native={folder}");
        }
    }
    println!("cargo:rustc-link-lib=dylib=sellumaq");
    Ok(())
}

/// Makes `libsellumaq.a` of the text in a folder: of one object, whose only global names are the library's.
fn build(folder: &str) -> Done<()> {
    // one of an earlier run isn't this one's
    drop(fs::remove_file(Path::new(folder).join("libsellumaq.a")));
    refuse_other_targets()?;
    let (calls, system) = (text("sellumaq.s")?, text("system.c")?);
    let (files, unsorted, _) = (text("files.c")?, text("unsorted.c")?, text("sellumaq.h")?);
    let run = |tool: &Tool, arguments: &[&str]| tool.run(folder, arguments);
    let c = Tool::find("CC", "cc", "C compiler");
    run(&c, &["-c", &calls, "-o", "calls.o"])?;
    for (source, object) in [
        (&system, "system.o"),
        (&files, "files.o"),
        (&unsorted, "unsorted.o"),
    ] {
        run(&c, &["-O2", "-fPIC", "-c", source, "-o", object])?;
    }
    let ld = Tool::find("LD", "ld", "linker");
    let objects = ["calls.o", "system.o", "files.o", "unsorted.o"];
    run(&ld, &[&["-r", "-o", "sellumaq.o"], &objects[..]].concat())?;
    let objcopy = Tool::find("OBJCOPY", "objcopy", "program that hides names");
    let kept = "--keep-global-symbol=sellumaq_*";
    run(&objcopy, &["--wildcard", kept, "sellumaq.o"])?;
    let ar = Tool::find("AR", "ar", "archiver");
    run(&ar, &["crs", "libsellumaq.a", "sellumaq.o"])
}

fn refuse_other_targets() -> Done<()> {
    let known = [
        ("ARCH", "x86_64"),
        ("OS", "linux"),
        ("ENV", "gnu"),
        ("POINTER_WIDTH", "64"),
    ];
    if known
        .iter()
        .all(|(name, value)| told(&format!("CARGO_CFG_TARGET_{name}")) == *value)
    {
        return Ok(());
    }
    Err(format!(
        "the compiled text is for x86-64, Linux and glibc, and the target is {}",
        told("TARGET")
    ))
}

/// Where a file of the text is: in a crate that was packed or installed it has a copy, and else it is the repository's.
fn text(name: &str) -> Done<String> {
    let crate_folder = told("CARGO_MANIFEST_DIR");
    let places = ["compiled", "../../../compiled", "../../c"]
        .map(|folder| format!("{crate_folder}/{folder}/{name}"));
    match places.into_iter().find(|file| Path::new(file).is_file()) {
        Some(file) => {
            println!("cargo:rerun-if-changed={file}");
            Ok(file)
        }
        None => Err(format!(
            "compiled/{name} is neither in the crate nor in a repository around it"
        )),
    }
}

/// A program that takes part in the build.
struct Tool {
    /// Its name, and the arguments that come before others.
    words: Vec<String>,
    variable: &'static str,
    kind: &'static str,
}

impl Tool {
    /// The program that a variable names, or else the usual one.
    fn find(name: &'static str, usual: &str, kind: &'static str) -> Tool {
        let of_target = variable(&format!("{name}_{}", told("TARGET")));
        let words = of_target
            .or_else(|| variable(name))
            .unwrap_or_else(|| usual.to_owned());
        Tool {
            words: words.split_whitespace().map(str::to_owned).collect(),
            variable: name,
            kind,
        }
    }

    /// Runs it in a folder. What it says of its errors goes to the user.
    fn run(&self, folder: &str, arguments: &[&str]) -> Done<()> {
        let (program, first) = self.words.split_first().ok_or("a tool's name is blank")?;
        let ended = Command::new(program)
            .args(first)
            .args(arguments)
            .current_dir(folder)
            .status();
        match ended {
            Ok(status) if status.success() => Ok(()),
            Ok(_) => Err(format!("{program} fails, and no library is built")),
            Err(error) if error.kind() == ErrorKind::NotFound => Err(format!(
                "there is no {} named {program}: install one, or name it by {}",
                self.kind, self.variable
            )),
            Err(error) => Err(format!("{program} can't be run: {error}")),
        }
    }
}
