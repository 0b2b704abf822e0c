//! Finds the proved static library and hands it to the linker.
//!
//! It is looked for in `GALITZAF_LIB_DIR`, a relative one from where the caller stands, or else in
//! the repository's `target/staticlib`. Where it isn't there, `packaging/archive` makes it. Without `rt`
//! the crate can still be checked and documented: only linking needs the library. It is made for
//! programs of an operating system, whose interrupts leave the red zone below the stack pointer
//! alone; other targets are refused.

use std::env;
use std::path::{Path, PathBuf};
use std::process::Command;

/// The name that the library is linked under.
const LIBRARY: &str = "galitzaf";

/// The archive that `packaging/archive` makes and `make install` puts in place.
const ARCHIVE: &str = "libgalitzaf.a";

fn main() {
    println!("cargo:rerun-if-env-changed=GALITZAF_LIB_DIR");
    println!("cargo:rerun-if-changed=build.rs");
    if let Err(message) = hosted().and_then(|()| link()) {
        eprintln!("galitzaf: {message}");
        std::process::exit(1);
    }
}

/// Refuses targets without an operating system.
fn hosted() -> Result<(), String> {
    let system = env::var("CARGO_CFG_TARGET_OS").unwrap_or_default();
    if ["", "none", "unknown", "uefi"].contains(&system.as_str()) {
        return Err(format!(
            "the target has no operating system (target_os {system:?}), and {ARCHIVE} uses the red \
             zone below the stack pointer: it is for programs in user space"
        ));
    }
    Ok(())
}

fn link() -> Result<(), String> {
    println!("cargo:rustc-link-lib=static={LIBRARY}");
    let Some(archive) = find()? else {
        println!(
            "cargo:warning=no target/staticlib/{ARCHIVE} and no `rt` on PATH to make it: this can be checked and \
             documented, not linked. To link, install the Rattle kit, or set GALITZAF_LIB_DIR to a folder that has \
             {ARCHIVE}"
        );
        return Ok(());
    };
    println!("cargo:rerun-if-changed={}", archive.display());
    let folder = archive.parent().ok_or("the archive stands at the root")?;
    println!("cargo:rustc-link-search=native={}", folder.display());
    Ok(())
}

/// The archive, or none where there is nothing to make it with.
fn find() -> Result<Option<PathBuf>, String> {
    if let Some(dir) = env::var_os("GALITZAF_LIB_DIR") {
        return named(Path::new(&dir)).map(Some);
    }
    let crate_dir = PathBuf::from(env::var_os("CARGO_MANIFEST_DIR").ok_or("no manifest")?);
    let root = crate_dir.parent().ok_or("the crate stands at the root")?;
    let archive = root.join("target").join("staticlib").join(ARCHIVE);
    if !archive.is_file() {
        // Not there: cargo runs this again on the next build.
        println!("cargo:rerun-if-changed={}", archive.display());
        if !installed("rt") {
            return Ok(None);
        }
        make(root)?;
    }
    if archive.is_file() {
        Ok(Some(archive))
    } else {
        Err(format!(
            "packaging/archive did not write {}",
            archive.display()
        ))
    }
}

/// The archive in the folder that the caller named. Cargo runs this script in the crate's folder; `PWD` is where the
/// caller's shell stands.
fn named(dir: &Path) -> Result<PathBuf, String> {
    let from = if dir.is_relative() {
        println!("cargo:rerun-if-env-changed=PWD");
        env::var_os("PWD").map(PathBuf::from).unwrap_or_default()
    } else {
        PathBuf::new()
    };
    let archive = from.join(dir).join(ARCHIVE);
    if archive.is_file() {
        Ok(archive)
    } else {
        Err(format!(
            "GALITZAF_LIB_DIR has no {ARCHIVE}: {}",
            from.join(dir).display()
        ))
    }
}

fn installed(program: &str) -> bool {
    let paths = env::var_os("PATH").unwrap_or_default();
    env::split_paths(&paths).any(|dir| dir.join(program).is_file())
}

/// Proves and compiles the library. Another kit than the pinned one is told.
fn make(root: &Path) -> Result<(), String> {
    if let Ok(kit) = Command::new(root.join("packaging").join("kit")).output() {
        for line in String::from_utf8_lossy(&kit.stderr).lines() {
            println!("cargo:warning={line}");
        }
    }
    let made = Command::new(root.join("packaging").join("archive"))
        .output()
        .map_err(|e| format!("packaging/archive: {e}"))?;
    if made.status.success() {
        return Ok(());
    }
    let [out, err] = [&made.stdout, &made.stderr].map(|said| String::from_utf8_lossy(said));
    Err(format!("packaging/archive failed:\n{out}{err}"))
}
