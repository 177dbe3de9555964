//! Under the feature `library`, links the library of the measuring calls and the toolchain's C part, and into the
//! measuring program a counter of allocations. The crate pendratsoa links the library for C.

use std::env;
use std::error::Error;
use std::path::PathBuf;
use std::process::Command;

fn main() -> Result<(), Box<dyn Error>> {
    println!("cargo:rerun-if-changed=build.rs");
    if env::var_os("CARGO_FEATURE_LIBRARY").is_none() {
        return Ok(());
    }
    link("BENCH_FFI", "bench_ffi")?;
    link("RATTLE_C", "libc_c")?;
    link_counter()
}

/// Links a static library out of the folder that a variable names.
fn link(variable: &str, name: &str) -> Result<(), Box<dyn Error>> {
    println!("cargo:rerun-if-env-changed={variable}");
    let folder = env::var(variable)
        .map_err(|_| format!("{variable} does not name the folder of lib{name}.a; see build.sh"))?;
    println!("cargo:rerun-if-changed={folder}/lib{name}.a");
    println!("cargo:rustc-link-search=native={folder}");
    println!("cargo:rustc-link-lib=static={name}");
    Ok(())
}

fn link_counter() -> Result<(), Box<dyn Error>> {
    println!("cargo:rerun-if-changed=count.c");
    println!("cargo:rerun-if-env-changed=CC");
    let compiler = env::var("CC").unwrap_or_else(|_| "cc".into());
    let object = PathBuf::from(env::var("OUT_DIR")?).join("count.o");
    let status = Command::new(&compiler)
        .args(["-O2", "-Wall", "-Wextra", "-c", "count.c", "-o"])
        .arg(&object)
        .status()?;
    if !status.success() {
        return Err(format!("{compiler} does not compile count.c").into());
    }
    println!("cargo:rustc-link-arg-bin=speed={}", object.display());
    for call in ["malloc", "calloc", "realloc"] {
        println!("cargo:rustc-link-arg-bin=speed=-Wl,--wrap={call}");
    }
    Ok(())
}
