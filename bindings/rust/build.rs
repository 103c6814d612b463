//! Builds the proved library from its assembly, or finds one that is built:
//!
//! - `NALTVIGO_LIB` names a folder with `libnaltvigo.a` (for MSVC `naltvigo.lib`) for the target;
//! - with the feature `system`, pkg-config knows an installed naltvigo;
//! - else a C compiler assembles `asm/naltvigo.S` (in the repository `portable/naltvigo.S`), which picks the file for the target.

use std::env;
use std::path::{Path, PathBuf};
use std::process::Command;

fn main() {
    for name in [
        "NALTVIGO_LIB",
        "PKG_CONFIG",
        "PKG_CONFIG_PATH",
        "PKG_CONFIG_ALLOW_CROSS",
    ] {
        println!("cargo:rerun-if-env-changed={name}");
    }
    if let Some(folder) = env::var_os("NALTVIGO_LIB") {
        link_archive(&PathBuf::from(folder));
    } else if env::var_os("CARGO_FEATURE_SYSTEM").is_some() {
        link_installed();
    } else {
        assemble();
    }
}

fn is_msvc() -> bool {
    env::var("CARGO_CFG_TARGET_ENV").is_ok_and(|it| it == "msvc")
}

fn link_archive(folder: &Path) {
    let archive = folder.join(if is_msvc() {
        "naltvigo.lib"
    } else {
        "libnaltvigo.a"
    });
    if !archive.is_file() {
        panic!("NALTVIGO_LIB: {} does not exist", archive.display());
    }
    println!("cargo:rerun-if-changed={}", archive.display());
    println!("cargo:rustc-link-search=native={}", folder.display());
    println!("cargo:rustc-link-lib=static=naltvigo");
}

// The library of this machine is none for another one, so a cross build names its own pkg-config.
fn link_installed() {
    let is_cross = env::var_os("HOST") != env::var_os("TARGET");
    let is_named = env::var_os("PKG_CONFIG").is_some()
        || env::var_os("PKG_CONFIG_ALLOW_CROSS").is_some_and(|flag| flag == "1");
    if is_cross && !is_named {
        panic!("a cross build with the feature `system` needs PKG_CONFIG, the target's pkg-config");
    }
    let tool = env::var_os("PKG_CONFIG").unwrap_or_else(|| "pkg-config".into());
    let run = Command::new(&tool)
        .args(["--libs", "naltvigo >= 2.0.0"])
        .output();
    let found = match run {
        Ok(run) if run.status.success() => String::from_utf8(run.stdout).expect("UTF-8"),
        Ok(run) => panic!("{}", String::from_utf8_lossy(&run.stderr).trim()),
        Err(why) => panic!("{}: {why}", tool.to_string_lossy()),
    };
    for word in found.split_whitespace() {
        if let Some(folder) = word.strip_prefix("-L") {
            println!("cargo:rustc-link-search=native={folder}");
        }
    }
    println!("cargo:rustc-link-lib=naltvigo");
}

fn assemble() {
    if is_msvc() {
        panic!("MSVC does not assemble these files: use a -gnu target, or NALTVIGO_LIB");
    }
    let folder = if Path::new("asm").is_dir() {
        "asm"
    } else {
        "../../portable"
    };
    println!("cargo:rerun-if-changed={folder}");
    // With a relative path that begins with `..`, cc writes the object outside of OUT_DIR.
    let from = env::current_dir().expect("cargo starts this in the package's folder");
    cc::Build::new()
        .file(from.join(folder).join("naltvigo.S"))
        .warnings(false)
        .compile("naltvigo");
}
