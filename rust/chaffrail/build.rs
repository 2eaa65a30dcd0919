//! Links the static library: from the folder that CHAFFRAIL_LIB names, or from where `rt lib` leaves it; for a board from target/board.
use std::env;
use std::path::PathBuf;

fn main() {
    println!("cargo::rerun-if-env-changed=CHAFFRAIL_LIB");
    let here = PathBuf::from(env::var("CARGO_MANIFEST_DIR").unwrap());
    let (target, host) = (env::var("TARGET").unwrap(), env::var("HOST").unwrap());
    let (folder, made_by) = match env::var_os("CHAFFRAIL_LIB") {
        Some(named) => (PathBuf::from(named), "CHAFFRAIL_LIB names its folder"),
        None if target == host => (here.join("../../crates/chaffrail/out"), "`rt lib` in crates/chaffrail writes it"),
        None => (here.join("../../target/board").join(target), "`board/build` writes it"),
    };
    let archive = folder.join("libchaffrail.a");
    println!("cargo::rerun-if-changed={}", archive.display());
    if !archive.exists() {
        println!("cargo::error=no library at {}: {made_by}", archive.display());
        return;
    }
    println!("cargo::rustc-link-search=native={}", folder.display());
    println!("cargo::rustc-link-lib=static=chaffrail");
}
