//! Links crates/exports/out/libexports.a, which `rt lib` in crates/exports writes.

fn main() {
    let archives = format!("{}/../crates/exports/out", env!("CARGO_MANIFEST_DIR"));
    println!("cargo:rustc-link-search=native={archives}");
    println!("cargo:rustc-link-lib=static=exports");
    println!("cargo:rerun-if-changed={archives}/libexports.a");
}
