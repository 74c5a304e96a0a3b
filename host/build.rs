//! Links libslipgrease.a: the one that `make lib` leaves in build/, or that of the folder which SLIPGREASE_LIB names.

use std::env;
use std::path::PathBuf;
use std::process;

fn main() {
    let host = PathBuf::from(env::var("CARGO_MANIFEST_DIR").expect("cargo names the folder"));
    let named = env::var("SLIPGREASE_LIB").ok().filter(|folder| !folder.is_empty());
    // The folder in which cargo was started is not known here. So a relative one is taken from host/, and told in full.
    let folder = host.join(named.as_deref().unwrap_or("../build"));
    let archive = folder.join("libslipgrease.a");
    println!("cargo:rustc-link-search=native={}", folder.display());
    println!("cargo:rustc-link-lib=static=slipgrease");
    println!("cargo:rerun-if-env-changed=SLIPGREASE_LIB");
    println!("cargo:rerun-if-changed={}", archive.display());
    if !archive.is_file() {
        let remedy = match named {
            Some(_) => "SLIPGREASE_LIB should name its folder by the full path; `make lib` above host/ leaves it in build/",
            None => "run `make lib` in the folder above host/, or name the folder that has it in SLIPGREASE_LIB",
        };
        eprintln!("The library is missing, {}: {remedy}.", archive.display());
        process::exit(1);
    }
    if env::var("CARGO_CFG_TARGET_ARCH").as_deref() != Ok("x86_64") {
        println!("cargo:warning=the library is code for x86-64: only programs for that can be linked with it");
    }
}
