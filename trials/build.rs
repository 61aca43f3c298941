// Links target/staticlib/libgateway.a, which `tools/build gateway` writes.
fn main() {
    let root = std::path::Path::new(env!("CARGO_MANIFEST_DIR"))
        .parent()
        .unwrap()
        .join("target/staticlib");
    println!("cargo:rustc-link-search=native={}", root.display());
    println!("cargo:rustc-link-lib=static=gateway");
    println!(
        "cargo:rerun-if-changed={}",
        root.join("libgateway.a").display()
    );
}
