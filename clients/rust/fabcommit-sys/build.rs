//! Finds the library: by FABCOMMIT_LIB, a folder with libfabcommit_c.a and the kit's liblibc_c.a, or else by pkg-config.
//! With FABCOMMIT_STATIC the archive that pkg-config knows is linked in place of the shared object.
use std::env;
use std::ffi::OsString;
use std::path::Path;
use std::process::{exit, Command};

fn failed(why: String) -> ! {
    eprintln!("fabcommit-sys: {why}");
    exit(1)
}

fn link_archives(folder: OsString) {
    let folder = Path::new(&folder);
    let folder =
        folder.canonicalize().unwrap_or_else(|e| failed(format!("FABCOMMIT_LIB is {}: {e}", folder.display())));
    println!("cargo:rustc-link-search=native={}", folder.display());
    for name in ["fabcommit_c", "libc_c"] {
        let archive = folder.join(format!("lib{name}.a"));
        if !archive.is_file() {
            failed(format!("there is no {}", archive.display()));
        }
        println!("cargo:rustc-link-lib=static={name}");
        println!("cargo:rerun-if-changed={}", archive.display());
    }
}

/// The words that pkg-config prints, in which a backslash takes a character as it is.
fn words(line: &str) -> Vec<String> {
    let (mut words, mut word, mut chars) = (vec![], String::new(), line.chars());
    while let Some(c) = chars.next() {
        match c {
            '\\' => word.extend(chars.next()),
            c if c.is_whitespace() => words.push(std::mem::take(&mut word)),
            c => word.push(c),
        }
    }
    words.push(word);
    words.retain(|word| !word.is_empty());
    words
}

fn link_installed() {
    let is_static = env::var_os("FABCOMMIT_STATIC").is_some();
    let program = env::var_os("PKG_CONFIG").unwrap_or_else(|| "pkg-config".into());
    let mut asked = Command::new(&program);
    // of folders like /usr/lib, too, which the linker knows and rustc doesn't
    asked.args(["--libs", "fabcommit"]).args(is_static.then_some("--static")).env("PKG_CONFIG_ALLOW_SYSTEM_LIBS", "1");
    let told =
        asked.output().unwrap_or_else(|e| failed(format!("FABCOMMIT_LIB isn't set, and {program:?} doesn't run: {e}")));
    if !told.status.success() {
        let why = String::from_utf8_lossy(&told.stderr);
        failed(format!("FABCOMMIT_LIB isn't set, and pkg-config knows no fabcommit:\n{why}"));
    }
    for word in words(&String::from_utf8_lossy(&told.stdout)) {
        match word.split_at_checked(2) {
            Some(("-L", folder)) => println!("cargo:rustc-link-search=native={folder}"),
            Some(("-l", "fabcommit")) if is_static => println!("cargo:rustc-link-lib=static=fabcommit"),
            Some(("-l", name)) => println!("cargo:rustc-link-lib={name}"),
            _ => println!("cargo:rustc-link-arg={word}"),
        }
    }
}

fn main() {
    for name in ["LIB", "STATIC"].map(|name| format!("FABCOMMIT_{name}")) {
        println!("cargo:rerun-if-env-changed={name}");
    }
    for name in ["", "_PATH", "_LIBDIR", "_SYSROOT_DIR"] {
        println!("cargo:rerun-if-env-changed=PKG_CONFIG{name}");
    }
    match env::var_os("FABCOMMIT_LIB") {
        Some(folder) => link_archives(folder),
        None => link_installed(),
    }
}
