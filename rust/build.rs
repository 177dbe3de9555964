//! Finds the library for C, and has it linked.
//!
//! `PENDRATSOA_PREFIX` names the folder that it was installed below; otherwise the program pkg-config says where it is.
//! The shared library is linked, and where `PENDRATSOA_STATIC` is set to anything but 0 the static one.
//!
//! The crate of a release has the static library, in `lib`, in a folder of the target's name. There that one is linked,
//! unless `PENDRATSOA_PREFIX` is set, or `PENDRATSOA_STATIC` is 0.
//!
//! A missing library is a warning, so that `cargo check`, `cargo doc` and a language server work without one. What is
//! linked then is a library that there is not, whose name says so in the error of the linker.

use std::env;
use std::ffi::OsString;
use std::path::{Path, PathBuf};
use std::process::Command;

const VARIABLES: [&str; 6] = [
    "PENDRATSOA_PREFIX",
    "PENDRATSOA_STATIC",
    "PKG_CONFIG",
    "PKG_CONFIG_LIBDIR",
    "PKG_CONFIG_PATH",
    "PKG_CONFIG_SYSROOT_DIR",
];

const INSTALL: &str =
    "the repository of Pendratsoa installs the library by `sh scripts/install.sh --library PREFIX`";

fn main() {
    println!("cargo:rerun-if-changed=build.rs");
    for variable in VARIABLES {
        println!("cargo:rerun-if-env-changed={variable}");
    }
    if let Err(reason) = link() {
        println!("cargo:warning=pendratsoa: nothing can be linked, since {reason}");
        println!("cargo:rustc-link-lib=dylib=pendratsoa_is_not_installed");
        // a file that is never there, so that each build looks for the library again
        println!("cargo:rerun-if-changed=pendratsoa_is_not_installed");
    }
}

/// Says to cargo what to link, or why there is nothing to link.
fn link() -> Result<(), String> {
    if let Some(folder) = bundled() {
        say("static", &folder, &folder.join("libpendratsoa.a"));
        return Ok(());
    }
    let (kind, file) = if is_static().unwrap_or(false) {
        ("static", "libpendratsoa.a")
    } else {
        ("dylib", "libpendratsoa.so")
    };
    let folder = match env::var_os("PENDRATSOA_PREFIX") {
        Some(prefix) => Path::new(&prefix).join("lib"),
        None => folder_of_pkg_config()?,
    };
    let library = folder.join(file);
    if !library.is_file() {
        return Err(format!("there is no {}; {INSTALL}", library.display()));
    }
    say(kind, &folder, &library);
    Ok(())
}

/// Says to cargo which library is linked, and in which folder it is.
fn say(kind: &str, folder: &Path, library: &Path) {
    println!("cargo:rerun-if-changed={}", library.display());
    println!("cargo:rustc-link-search=native={}", folder.display());
    println!("cargo:rustc-link-lib={kind}=pendratsoa");
}

/// The folder of the static library that a release has for this target, where that one is to be linked.
fn bundled() -> Option<PathBuf> {
    let is_chosen = env::var_os("PENDRATSOA_PREFIX").is_none() && is_static().unwrap_or(true);
    let folder = Path::new(&env::var_os("CARGO_MANIFEST_DIR")?)
        .join("lib")
        .join(env::var_os("TARGET")?);
    (is_chosen && folder.join("libpendratsoa.a").is_file()).then_some(folder)
}

/// Whether the static library is wanted, if `PENDRATSOA_STATIC` says so.
fn is_static() -> Option<bool> {
    let value = env::var_os("PENDRATSOA_STATIC").filter(|value| !value.is_empty())?;
    Some(value != "0")
}

/// The folder of the library, by pkg-config: at least the version of this crate, since an older one may lack a call.
fn folder_of_pkg_config() -> Result<PathBuf, String> {
    let program = env::var_os("PKG_CONFIG").unwrap_or_else(|| OsString::from("pkg-config"));
    let wanted = concat!("pendratsoa >= ", env!("CARGO_PKG_VERSION"));
    let output = Command::new(&program)
        .args(["--print-errors", "--variable=libdir", wanted])
        .output()
        .map_err(|error| {
            let program = program.to_string_lossy();
            format!("PENDRATSOA_PREFIX is not set, and {program} cannot be run: {error}; {INSTALL}")
        })?;
    if !output.status.success() {
        let said = String::from_utf8_lossy(&output.stderr);
        return Err(format!(
            "PENDRATSOA_PREFIX is not set, and pkg-config does not know the library; {INSTALL}. It says: {}",
            said.split_whitespace().collect::<Vec<_>>().join(" ")
        ));
    }
    Ok(PathBuf::from(
        String::from_utf8_lossy(&output.stdout).trim(),
    ))
}
