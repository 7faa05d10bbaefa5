// Where libxvsh.a is: the folder in XVSH_LIB; else that of dist/ of the checkout, unpacked by bindings/build, if it is of these sources; else
// lib/ of the checkout.
use std::env;
use std::path::{Path, PathBuf};
use std::process::{Command, Stdio};

fn library(top: &Path) -> PathBuf {
    if let Some(named) = env::var_os("XVSH_LIB") {
        return named.into();
    }
    let to = Path::new(&env::var_os("OUT_DIR").expect("cargo sets OUT_DIR")).join("lib");
    let build = top.join("bindings/build");
    let unpacked = Command::new(&build).arg("--packed").arg("--to").arg(&to).stderr(Stdio::null()).status();
    if unpacked.is_ok_and(|status| status.success()) {
        return to;
    }
    let built = top.join("lib");
    assert!(built.join("libxvsh.a").exists(), "neither dist/ nor lib/ of {} has the library: bindings/build builds it, and XVSH_LIB names its folder", top.display());
    built
}

fn main() {
    let top = Path::new(&env::var_os("CARGO_MANIFEST_DIR").expect("cargo sets it")).join("../..");
    let lib = library(&top);
    println!("cargo:rerun-if-env-changed=XVSH_LIB");
    for it in ["dist/record", "include/xvsh.h", "lib/sources"] {
        println!("cargo:rerun-if-changed={}", top.join(it).display());
    }
    println!("cargo:rerun-if-changed={}", lib.join("libxvsh.a").display());
    println!("cargo:rustc-link-search=native={}", lib.display());
    println!("cargo:rustc-link-lib=static=xvsh");
}
