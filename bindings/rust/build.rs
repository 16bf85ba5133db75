//! Finds libkoralimbu.a: in KORALIMBU_LIB_DIR, or where `tools/archive` leaves it in this checkout.

use std::env;
use std::path::{Path, PathBuf};

fn main() {
    let directory = match env::var_os("KORALIMBU_LIB_DIR") {
        Some(given) => PathBuf::from(given),
        None => Path::new(env!("CARGO_MANIFEST_DIR")).join("../../target/staticlib"),
    };
    let archive = directory.join("libkoralimbu.a");
    println!("cargo:rerun-if-env-changed=KORALIMBU_LIB_DIR");
    println!("cargo:rerun-if-changed={}", archive.display());
    if !archive.is_file() {
        eprintln!(
            "no {}: run `tools/archive` at the top of the checkout, or set KORALIMBU_LIB_DIR",
            archive.display()
        );
        std::process::exit(1);
    }
    println!("cargo:rustc-link-search=native={}", directory.display());
    println!("cargo:rustc-link-lib=static=koralimbu");
}
