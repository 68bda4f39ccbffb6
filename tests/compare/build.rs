// Links target/native/libsgroup_c.a of the repository that holds this folder.
fn main() {
    let here = std::env::var("CARGO_MANIFEST_DIR").unwrap();
    println!("cargo:rustc-link-search=native={here}/../../target/native");
    println!("cargo:rustc-link-lib=static=sgroup_c");
    println!("cargo:rerun-if-changed=../../target/native/libsgroup_c.a");
}
