//! Finds the library: the static library that MOULT_LIB names or, where it is not set, the installed
//! one that pkg-config finds.

use std::env;
use std::ffi::OsString;
use std::fs;
use std::path::{self, PathBuf};
use std::process::{self, Command};

/// Versions whose calls are those of src/ffi.rs: a later one of the same first number only adds.
const VERSIONS: [&str; 2] = ["moult >= 0.1.0", "moult < 1"];

/// What pkg-config itself looks at.
const PKG_CONFIG_ENV: [&str; 4] = [
    "PKG_CONFIG",
    "PKG_CONFIG_PATH",
    "PKG_CONFIG_LIBDIR",
    "PKG_CONFIG_SYSROOT_DIR",
];

/// A variable that is set and not empty.
fn set(name: &str) -> Option<OsString> {
    println!("cargo::rerun-if-env-changed={name}");
    env::var_os(name).filter(|value| !value.is_empty())
}

/// The linker looks for lib<name>.a, whatever the file is called: it gets a copy.
fn link_file(file: &OsString) -> Result<(), String> {
    let file = path::absolute(file).map_err(|error| format!("MOULT_LIB: {error}"))?;
    println!("cargo::rerun-if-changed={}", file.display());
    let folder = PathBuf::from(env::var_os("OUT_DIR").expect("cargo sets OUT_DIR"));
    fs::copy(&file, folder.join("libmoult.a"))
        .map_err(|error| format!("MOULT_LIB names {}: {error}", file.display()))?;
    println!("cargo::rustc-link-search=native={}", folder.display());
    println!("cargo::rustc-link-lib=static=moult");
    Ok(())
}

/// What pkg-config prints of the library's flags.
fn flags(program: OsString) -> Result<String, String> {
    let name = program.to_string_lossy().into_owned();
    let output = Command::new(program)
        .args(["--libs", "--print-errors"])
        .args(VERSIONS)
        .output()
        .map_err(|error| format!("{name}: {error}"))?;
    if !output.status.success() {
        let said = String::from_utf8_lossy(&output.stderr);
        return Err(format!("{name} says:\n{}", said.trim_end()));
    }
    String::from_utf8(output.stdout).map_err(|error| format!("{name}: {error}"))
}

/// The flags one by one; a `\` stands before a space that is part of one.
fn words(flags: &str) -> Vec<String> {
    let mut words = vec![String::new()];
    let mut characters = flags.chars();
    while let Some(character) = characters.next() {
        let last = words.last_mut().expect("there is a word from the start");
        match character {
            '\\' => last.extend(characters.next()),
            character if character.is_whitespace() => words.push(String::new()),
            character => last.push(character),
        }
    }
    words.retain(|word| !word.is_empty());
    words
}

fn link_installed(flags: &str) {
    for word in words(flags) {
        if let Some(folder) = word.strip_prefix("-L") {
            println!("cargo::rustc-link-search=native={folder}");
        } else if let Some(name) = word.strip_prefix("-l") {
            println!("cargo::rustc-link-lib={name}");
        }
    }
}

fn link() -> Result<(), String> {
    if let Some(file) = set("MOULT_LIB") {
        return link_file(&file);
    }
    let [program, ..] = PKG_CONFIG_ENV.map(set);
    let program = program.unwrap_or_else(|| "pkg-config".into());
    link_installed(&flags(program)?);
    Ok(())
}

fn main() {
    println!("cargo::rerun-if-changed=build.rs");
    if let Err(why) = link() {
        eprintln!(
            "The moult library was not found.\n\
             Set MOULT_LIB to the path of a static library libmoult.a, or install the library so that\n\
             `pkg-config moult` finds it (PKG_CONFIG_PATH names the folder of moult.pc).\n\n{why}"
        );
        process::exit(1);
    }
}
