//! Links the proved library that `bin/native` makes for the machine at hand.
fn main() {
    let library = std::path::Path::new(env!("CARGO_MANIFEST_DIR")).join("../target/native");
    println!("cargo:rustc-link-search=native={}", library.display());
    println!(
        "cargo:rerun-if-changed={}",
        library.join("libdoor.a").display()
    );
}
