//! Links the static library that stands in `lib/` beside this file, or in the folder `GAWERUNOA_LIB_DIR`.

fn main() {
    let own = concat!(env!("CARGO_MANIFEST_DIR"), "/lib");
    let folder = std::env::var("GAWERUNOA_LIB_DIR").unwrap_or_else(|_| own.to_string());
    println!("cargo:rerun-if-env-changed=GAWERUNOA_LIB_DIR");
    println!("cargo:rerun-if-changed={folder}/libgawerunoa.a");
    println!("cargo:rustc-link-search=native={folder}");
    println!("cargo:rustc-link-lib=static=gawerunoa");
}
