//! Build script: links the archive that tools/archive makes.

fn main() {
    let dir = std::env::var("STATICLIB_DIR").expect("build with tools/link cargo");
    println!("cargo:rerun-if-env-changed=STATICLIB_DIR");
    println!("cargo:rerun-if-changed={dir}/libdeckmarten.a");
    println!("cargo:rustc-link-search=native={dir}");
    println!("cargo:rustc-link-lib=static=deckmarten");
}
