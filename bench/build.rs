//! Links the static library, from `crates/hiranthok/out` or from `HIRANTHOK_LIB_DIR`.

use std::env;
use std::path::PathBuf;
use std::process::exit;

fn main() {
    let folder = match env::var_os("HIRANTHOK_LIB_DIR") {
        Some(folder) => PathBuf::from(folder),
        None => PathBuf::from(env!("CARGO_MANIFEST_DIR")).join("../crates/hiranthok/out"),
    };
    let library = folder.join("libhiranthok.a");
    println!("cargo:rerun-if-env-changed=HIRANTHOK_LIB_DIR");
    println!("cargo:rerun-if-changed={}", library.display());
    if !library.is_file() {
        eprintln!("{} is missing; build it first: rt lib in crates/hiranthok", library.display());
        exit(1);
    }
    println!("cargo:rustc-link-search=native={}", folder.display());
    println!("cargo:rustc-link-lib=static=hiranthok");
}
