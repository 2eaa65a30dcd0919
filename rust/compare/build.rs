//! Takes the original's three files, unchanged, from a checkout of pico-dvi-rs: from the folder that PICO_DVI_RS names, or from the
//! folder `shared/docs/src` beside the repository.
use std::path::PathBuf;
use std::{env, fs};

fn main() {
    println!("cargo::rerun-if-env-changed=PICO_DVI_RS");
    let here = PathBuf::from(env::var("CARGO_MANIFEST_DIR").unwrap());
    let checkout = match env::var_os("PICO_DVI_RS") {
        Some(named) => PathBuf::from(named),
        None => here.join("../../../shared/docs/src"),
    };
    let out = PathBuf::from(env::var("OUT_DIR").unwrap());
    for name in ["tmds.rs", "data_island.rs", "timing.rs"] {
        let from = checkout.join("src/dvi").join(name);
        println!("cargo::rerun-if-changed={}", from.display());
        if let Err(why) = fs::copy(&from, out.join(name)) {
            println!("cargo::error=the original is not at {}: {why} (PICO_DVI_RS names a checkout of pico-dvi-rs)", from.display());
            return;
        }
    }
    // `#[path]` takes no expression, so the module that names the copies is written here.
    let modules = format!(
        "#[path = {tmds:?}]\npub mod tmds;\n#[path = {timing:?}]\npub mod timing;\n",
        tmds = out.join("tmds.rs"),
        timing = out.join("timing.rs"),
    );
    fs::write(out.join("modules.rs"), modules).unwrap();
}
