//! Links the static library of crates/bench_exports, aligned by bench/run, and the toolchain's C library.
use std::env;
use std::path::Path;

fn main() {
    let library = Path::new(&env::var("CARGO_MANIFEST_DIR").unwrap()).join("target");
    println!("cargo:rerun-if-changed={}", library.join("libbench_exports.a").display());
    println!("cargo:rustc-link-search=native={}", library.display());
    println!("cargo:rustc-link-lib=static=bench_exports");

    println!("cargo:rerun-if-env-changed=C_LIBRARY");
    println!("cargo:rustc-link-arg={}", env::var("C_LIBRARY").unwrap());
}
