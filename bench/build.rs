// Links libexports.a and libgateway.a of target/staticlib, which `tools/build exports gateway` writes.
fn main() {
    let root = std::path::Path::new(env!("CARGO_MANIFEST_DIR")).parent().unwrap().join("target/staticlib");
    println!("cargo:rustc-link-search=native={}", root.display());
    for name in ["exports", "gateway"] {
        println!("cargo:rustc-link-lib=static={name}");
        println!("cargo:rerun-if-changed={}", root.join(format!("lib{name}.a")).display());
    }
}
