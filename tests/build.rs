//! Links the static library that `rt lib` leaves in `crates/hiranthok/out`.

use std::path::PathBuf;
use std::{env, process};

fn main() {
    println!("cargo:rerun-if-env-changed=HIRANTHOK_LIB_DIR");
    let folder = match env::var_os("HIRANTHOK_LIB_DIR") {
        Some(given) => PathBuf::from(given),
        None => PathBuf::from(env!("CARGO_MANIFEST_DIR")).join("../crates/hiranthok/out"),
    };
    let library = folder.join("libhiranthok.a");
    println!("cargo:rerun-if-changed={}", library.display());
    if !library.is_file() {
        eprintln!("{} is not there; build it first: rt lib in crates/hiranthok", library.display());
        process::exit(1);
    }
    println!("cargo:rustc-link-search=native={}", folder.display());
    println!("cargo:rustc-link-lib=static=hiranthok");
}
