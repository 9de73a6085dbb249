// Where the archive of the device core is: MAST_LIB, or where `bind/archive` leaves it.
use std::env;
use std::path::PathBuf;

fn main() {
    println!("cargo:rerun-if-env-changed=MAST_LIB");
    let place = match env::var_os("MAST_LIB") {
        Some(place) => PathBuf::from(place),
        None => PathBuf::from(env::var_os("CARGO_MANIFEST_DIR").unwrap()).join("../../out"),
    };
    println!("cargo:rerun-if-changed={}", place.join("liblink.a").display());
    println!("cargo:rustc-link-search=native={}", place.display());
    println!("cargo:rustc-link-lib=static=link");
}
