//! Says where libcapi.a stands: in the folder that MZTAB_LIBRARY_FOLDER names, else in crates/capi/out of the repository.

use std::env;
use std::path::PathBuf;
use std::process::exit;

const FOLDER: &str = "MZTAB_LIBRARY_FOLDER";

fn main() {
    println!("cargo:rerun-if-env-changed={FOLDER}");
    let named = env::var_os(FOLDER).map(PathBuf::from);
    if named.is_none() && env::var("CARGO_CFG_TARGET_ARCH").as_deref() != Ok("x86_64") {
        stop("crates/capi/out/libcapi.a holds x86-64 code: build for x86_64-unknown-linux-gnu, as host/machine says");
    }
    let folder = named.unwrap_or_else(|| PathBuf::from("../../crates/capi/out"));
    let archive = folder.join("libcapi.a");
    println!("cargo:rerun-if-changed={}", archive.display());
    match folder.canonicalize() {
        Ok(folder) if archive.is_file() => {
            println!("cargo:rustc-link-search=native={}", folder.display());
            println!("cargo:rustc-link-lib=static=capi");
        }
        _ => stop(&format!(
            "there is no {}: `rt lib` in crates/capi writes it into crates/capi/out",
            archive.display()
        )),
    }
}

fn stop(words: &str) -> ! {
    eprintln!("mztab: {words}");
    exit(1)
}
