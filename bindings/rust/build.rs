//! Finds `librtmfp.a`, which `scripts/build-library` makes, and links it: in the folder that
//! `RTMFP_LIBRARY_DIR` names, else where `pkg-config` finds `rtmfp`, else in `out/library/lib` of
//! the checkout.
use std::env;
use std::path::{Path, PathBuf};
use std::process::{Command, exit};

const ARCHIVE: &str = "librtmfp.a";
const VARIABLE: &str = "RTMFP_LIBRARY_DIR";

fn main() {
    for name in [VARIABLE, "PKG_CONFIG", "PKG_CONFIG_PATH", "PKG_CONFIG_LIBDIR"] {
        println!("cargo:rerun-if-env-changed={name}");
    }
    let Some(folder) = named().or_else(installed).or_else(built) else {
        println!("cargo:warning=no {ARCHIVE}: call scripts/build-library or set {VARIABLE}");
        exit(1);
    };
    println!("cargo:rerun-if-changed={}", folder.join(ARCHIVE).display());
    println!("cargo:rustc-link-search=native={}", folder.display());
    println!("cargo:rustc-link-lib=static=rtmfp");
}

/// The folder that the variable names. If it's set, no other is looked at.
fn named() -> Option<PathBuf> {
    env::var_os(VARIABLE).map(PathBuf::from)
}

/// The folder that pkg-config tells.
fn installed() -> Option<PathBuf> {
    let program = env::var_os("PKG_CONFIG").unwrap_or_else(|| "pkg-config".into());
    let told = Command::new(program).args(["--variable=libdir", "rtmfp"]).output().ok()?;
    let folder = PathBuf::from(String::from_utf8(told.stdout).ok()?.trim());
    (told.status.success() && folder.join(ARCHIVE).exists()).then_some(folder)
}

/// The checkout's own.
fn built() -> Option<PathBuf> {
    let here = env::var_os("CARGO_MANIFEST_DIR")?;
    let folder = Path::new(&here).parent()?.parent()?.join("out/library/lib");
    folder.join(ARCHIVE).exists().then_some(folder)
}
