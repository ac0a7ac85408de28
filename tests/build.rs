// Links the proved static libraries. c/libs writes them to ../target/staticlib.
fn main() {
    let root = std::path::Path::new(env!("CARGO_MANIFEST_DIR")).join("../target/staticlib");
    println!("cargo:rustc-link-search=native={}", root.display());
    for name in ["test_field", "erasure", "volume", "test_brick", "test_coordinator"] {
        println!("cargo:rustc-link-lib=static={name}");
        println!("cargo:rerun-if-changed={}", root.join(format!("lib{name}.a")).display());
    }
}
