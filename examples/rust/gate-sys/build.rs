//! Finds libgate.a: in the folder that `GATE_LIB_DIR` names, else in `lib` beside this file, else in the folder that pkg-config knows.
use std::env;
use std::path::{Path, PathBuf};
use std::process::{exit, Command};

const ARCHIVE: &str = "libgate.a";

/// The folder that came with the crate.
fn packed() -> Option<PathBuf> {
    let folder = Path::new(&env::var_os("CARGO_MANIFEST_DIR")?).join("lib");
    folder.join(ARCHIVE).exists().then_some(folder)
}

/// The folder of an installed library.
fn installed() -> Option<PathBuf> {
    let told = Command::new("pkg-config").args(["--variable=libdir", "gate"]).output().ok()?;
    let folder = String::from_utf8(told.stdout).ok()?;
    (told.status.success() && !folder.trim().is_empty()).then(|| PathBuf::from(folder.trim()))
}

fn fail(reason: &str) -> ! {
    eprintln!("gate-sys: {reason}; set GATE_LIB_DIR to the folder of {ARCHIVE}, or install it so that `pkg-config gate` finds it");
    exit(1)
}

/// Tells cargo to link the archive of a folder.
fn link(folder: &Path) {
    let Ok(archive) = folder.join(ARCHIVE).canonicalize() else {
        fail(&format!("there is no {ARCHIVE} in {}", folder.display()));
    };
    println!("cargo:rerun-if-changed={}", archive.display());
    if let Some(folder) = archive.parent() {
        println!("cargo:rustc-link-search=native={}", folder.display());
    }
    println!("cargo:rustc-link-lib=static=gate");
}

fn main() {
    println!("cargo:rerun-if-changed=build.rs");
    println!("cargo:rerun-if-env-changed=GATE_LIB_DIR");
    println!("cargo:rerun-if-env-changed=PKG_CONFIG_PATH");
    let named = env::var_os("GATE_LIB_DIR").map(PathBuf::from);
    match named.or_else(packed).or_else(installed) {
        Some(folder) => link(&folder),
        None => fail(&format!("{ARCHIVE} is not found")),
    }
}
