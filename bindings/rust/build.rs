// Links crates/capi/out/libcapi.a, which `rt lib` writes in crates/capi.
fn main() {
    let root = std::env::var("CARGO_MANIFEST_DIR").unwrap();
    println!("cargo:rustc-link-search=native={root}/../../crates/capi/out");
    println!("cargo:rustc-link-lib=static=capi");
    println!("cargo:rerun-if-changed=../../crates/capi/out/libcapi.a");
}
