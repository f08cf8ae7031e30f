// Links the static library that `rt lib` writes in `crates/bindings`.
use std::path::Path;

fn main() {
    let root = std::env::var("CARGO_MANIFEST_DIR").unwrap();
    let folder = Path::new(&root).join("../crates/bindings/out");
    println!("cargo:rustc-link-search=native={}", folder.display());
    println!("cargo:rustc-link-lib=static=bindings");
    println!("cargo:rerun-if-changed={}", folder.join("libbindings.a").display());
}
