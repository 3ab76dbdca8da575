//! Finds `libcron_c.a`: in the folder that `CRON_C_DIR` names, or else where pkg-config says that
//! it is installed.

use std::env;
use std::path::{Path, PathBuf};
use std::process::Command;

/// The versions whose structs and calls are those of `src/ffi.rs`.
const VERSIONS: &str = "cron_c >= 1.7.0 cron_c < 2.0.0";

const ARCHIVE: &str = "libcron_c.a";

fn main() {
    for name in ["CRON_C_DIR", "PKG_CONFIG", "PKG_CONFIG_PATH"] {
        println!("cargo:rerun-if-env-changed={name}");
    }
    match folder() {
        Ok(folder) => {
            println!("cargo:rerun-if-changed={}", folder.join(ARCHIVE).display());
            println!("cargo:rustc-link-search=native={}", folder.display());
            println!("cargo:rustc-link-lib=static=cron_c");
        }
        Err(why) => {
            eprintln!(
                "{why}\n\
                 Make the archive in a checkout: crates/cron_c/archive proves the library and\n\
                 writes crates/cron_c/out/whole/{ARCHIVE}.\n\
                 Then name its folder in CRON_C_DIR, or install it by make install in crates/cron_c,\n\
                 with PREFIX/lib/pkgconfig in PKG_CONFIG_PATH where pkg-config doesn't search it."
            );
            std::process::exit(1);
        }
    }
}

/// Returns the folder that holds the archive, or why there is none.
fn folder() -> Result<PathBuf, String> {
    let folder = match env::var_os("CRON_C_DIR") {
        Some(folder) => PathBuf::from(folder),
        None => installed()?,
    };
    if holds_archive(&folder) {
        Ok(folder)
    } else {
        Err(format!("There is no {ARCHIVE} in {}.", folder.display()))
    }
}

fn holds_archive(folder: &Path) -> bool {
    folder.join(ARCHIVE).is_file()
}

/// Returns the folder of libraries that pkg-config tells of `cron_c`.
fn installed() -> Result<PathBuf, String> {
    pkg_config(&["--print-errors", "--exists", VERSIONS])?;
    Ok(PathBuf::from(pkg_config(&["--variable=libdir", "cron_c"])?))
}

/// Returns the line that pkg-config answers.
fn pkg_config(words: &[&str]) -> Result<String, String> {
    let program = env::var_os("PKG_CONFIG").unwrap_or_else(|| "pkg-config".into());
    let said = Command::new(program)
        .args(words)
        .output()
        .map_err(|it| format!("CRON_C_DIR isn't set, and pkg-config can't be run: {it}."))?;
    let text = |bytes| String::from_utf8_lossy(bytes).trim().to_string();
    if said.status.success() {
        Ok(text(&said.stdout))
    } else {
        Err(format!(
            "CRON_C_DIR isn't set, and pkg-config finds no {VERSIONS}: {}",
            text(&said.stderr)
        ))
    }
}
