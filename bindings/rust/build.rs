//! Links the archive with the operations: the one that PASKEROTIM_ARCHIVE names or, in the
//! repository, the one that `tools/oracle archive` makes for this machine.

use std::env;
use std::path::{Path, PathBuf};
use std::process::{exit, Command, Stdio};

fn main() {
    println!("cargo:rerun-if-env-changed=PASKEROTIM_ARCHIVE");
    println!("cargo:rerun-if-changed=build.rs");
    let archive = match env::var_os("PASKEROTIM_ARCHIVE") {
        Some(named) if !named.is_empty() => PathBuf::from(named),
        _ => made(),
    };
    link(&archive);
}

/// Ends the build with a message.
fn fail(why: &str) -> ! {
    eprintln!("error: {why}");
    exit(1)
}

/// A variable that cargo sets for build scripts.
fn from_cargo(name: &str) -> String {
    env::var(name).unwrap_or_else(|_| fail(&format!("cargo has not set {name}")))
}

/// The archive of the repository that this folder is in, made if need be.
fn made() -> PathBuf {
    if from_cargo("TARGET") != from_cargo("HOST") {
        fail(
            "the repository makes an archive for the machine that it is on; \
             set PASKEROTIM_ARCHIVE to one for the target",
        );
    }
    let root = Path::new(&from_cargo("CARGO_MANIFEST_DIR")).join("../..");
    let oracle = root.join("tools/oracle");
    if !oracle.is_file() {
        fail(&format!(
            "no archive to link: set PASKEROTIM_ARCHIVE to a libpaskerotim.a for this machine, \
             as {} is not there to make one",
            oracle.display()
        ));
    }
    for part in ["crates", "crates.txt", "tools/oracle", "tools/oracle.d"] {
        println!("cargo:rerun-if-changed={}", root.join(part).display());
    }
    let made = Command::new(&oracle)
        .arg("archive")
        .env("LC_ALL", "C")
        .stdin(Stdio::null())
        .stderr(Stdio::inherit())
        .output()
        .unwrap_or_else(|why| fail(&format!("{} does not run: {why}", oracle.display())));
    if !made.status.success() {
        fail(
            "no archive to link: tools/oracle archive, which needs rt, the command of \
             the Rattle toolchain, on the PATH, says above why it made none; \
             or set PASKEROTIM_ARCHIVE to a libpaskerotim.a for this machine",
        );
    }
    PathBuf::from(String::from_utf8_lossy(&made.stdout).trim_end())
}

/// Has the archive linked, under whatever name it has.
fn link(archive: &Path) {
    let Ok(full) = archive.canonicalize() else {
        fail(&format!(
            "the archive {} is not there (looked for from {})",
            archive.display(),
            from_cargo("CARGO_MANIFEST_DIR")
        ))
    };
    let (true, Some(folder), Some(name)) = (full.is_file(), full.parent(), full.file_name()) else {
        fail(&format!("the archive {} is no file", archive.display()))
    };
    println!("cargo:rerun-if-changed={}", full.display());
    println!("cargo:rustc-link-search=native={}", folder.display());
    let name = name.to_string_lossy();
    println!("cargo:rustc-link-lib=static:+verbatim={name}");
}
