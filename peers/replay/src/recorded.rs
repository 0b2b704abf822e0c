//! The files of recorded cases.

use std::path::{Path, PathBuf};
use std::process::Command;

use crate::case::Case;

const FILES: [&str; 2] = ["qemu-7.2-mem.txt.gz", "qemu-7.2-int.txt.gz"];

/// The files of `peers/`.
pub fn files() -> Vec<PathBuf> {
    let peers = Path::new(env!("CARGO_MANIFEST_DIR")).join("..");
    FILES.iter().map(|name| peers.join(name)).collect()
}

/// A file's cases, each with its file name and line.
pub fn cases(file: &Path) -> Result<Vec<(String, Case)>, String> {
    let name = file
        .file_name()
        .unwrap_or(file.as_os_str())
        .to_string_lossy();
    let text = read(file)?;
    let numbered = text.lines().zip(1..).map(|(text, line)| {
        let at = format!("{name}:{line}");
        match Case::parse(text) {
            Ok(case) => Ok((at, case)),
            Err(e) => Err(format!("{at}: {e}")),
        }
    });
    numbered.collect()
}

/// A file's text. The standard library can't unpack, so gzip does.
fn read(file: &Path) -> Result<String, String> {
    let told = |e: &dyn std::fmt::Display| format!("{}: {e}", file.display());
    if file.extension().is_none_or(|extension| extension != "gz") {
        return std::fs::read_to_string(file).map_err(|e| told(&e));
    }
    let unpacked = Command::new("gzip").arg("-dc").arg(file).output();
    let unpacked = unpacked.map_err(|e| format!("gzip: {e}"))?;
    if !unpacked.status.success() {
        return Err(told(&String::from_utf8_lossy(&unpacked.stderr).trim()));
    }
    String::from_utf8(unpacked.stdout).map_err(|e| told(&e))
}
