//! Finds `libpashkure.a`: in the folder that PASHKURE_LIB_DIR names, and else by pkg-config.
use std::path::{Path, PathBuf};
use std::process::Command;

const ARCHIVE: &str = "libpashkure.a";

fn main() {
    for name in ["PASHKURE_LIB_DIR", "PKG_CONFIG", "PKG_CONFIG_PATH"] {
        println!("cargo:rerun-if-env-changed={name}");
    }
    if std::env::var_os("DOCS_RS").is_some() {
        return; // only the pages are made, and nothing is linked
    }
    match folder() {
        Ok(folder) => {
            println!("cargo:rerun-if-changed={}", folder.join(ARCHIVE).display());
            println!("cargo:rustc-link-search=native={}", folder.display());
            println!("cargo:rustc-link-lib=static=pashkure");
        }
        Err(why) => {
            eprintln!("error: {why}");
            eprintln!(
                "In a checkout of Pashkure, `./mmdetect prove` and `./mmdetect library DIR` write the library. Then set PASHKURE_LIB_DIR=DIR/lib,"
            );
            eprintln!("or PKG_CONFIG_PATH=DIR/lib/pkgconfig.");
            std::process::exit(1);
        }
    }
}

/// The folder of the archive, or why there is none.
fn folder() -> Result<PathBuf, String> {
    if let Some(folder) = std::env::var_os("PASHKURE_LIB_DIR") {
        return with_archive(Path::new(&folder)).ok_or(format!("the folder of PASHKURE_LIB_DIR, {folder:?}, has no {ARCHIVE}"));
    }
    let program = std::env::var_os("PKG_CONFIG").unwrap_or("pkg-config".into());
    let told = Command::new(&program).args(["--variable=libdir", "pashkure"]).output();
    let told = told.map_err(|error| format!("PASHKURE_LIB_DIR is not set, and {program:?} was not run: {error}"))?;
    if !told.status.success() {
        return Err("PASHKURE_LIB_DIR is not set, and pkg-config knows no pashkure".into());
    }
    let folder = PathBuf::from(String::from_utf8_lossy(&told.stdout).trim());
    with_archive(&folder).ok_or(format!("the folder that pkg-config names, {folder:?}, has no {ARCHIVE}"))
}

/// The folder by an absolute path, if the archive is there: cargo runs the linker elsewhere.
fn with_archive(folder: &Path) -> Option<PathBuf> {
    folder.canonicalize().ok().filter(|folder| folder.join(ARCHIVE).is_file())
}
