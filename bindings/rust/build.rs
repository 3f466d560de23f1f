//! Links `liblithe.a`, which `make` in `bindings/c` builds. `LITHE_LIB` is the folder that has it. With the feature `runtime`
//! links `liblithe_rt.a` of `bindings/runtime` in its place, which has all of it; `LITHE_RT_LIB` is the folder that has it.
use std::{env, path::PathBuf};

fn main() {
    let root = PathBuf::from(env::var_os("CARGO_MANIFEST_DIR").unwrap());
    let (variable, default, name) = match env::var_os("CARGO_FEATURE_RUNTIME") {
        Some(_) => ("LITHE_RT_LIB", "../runtime/build", "lithe_rt"),
        None => ("LITHE_LIB", "../c/build", "lithe"),
    };
    let folder = match env::var_os(variable) {
        Some(folder) => PathBuf::from(folder),
        None => root.join(default),
    };
    println!("cargo:rustc-link-search=native={}", folder.display());
    println!("cargo:rustc-link-lib=static={name}");
    println!("cargo:rerun-if-env-changed={variable}");
    let archive = folder.join(format!("lib{name}.a"));
    println!("cargo:rerun-if-changed={}", archive.display());
}
