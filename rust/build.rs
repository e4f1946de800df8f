// The proved static library: `./build` writes it. THIRADUAN_LIB names another folder.
fn main() {
    let top = std::path::Path::new(env!("CARGO_MANIFEST_DIR")).parent().unwrap();
    let folder = std::env::var_os("THIRADUAN_LIB").map_or(top.join("target/staticlib"), Into::into);
    println!("cargo:rustc-link-search=native={}", folder.display());
    println!("cargo:rustc-link-lib=static=thiraduan");
    println!("cargo:rerun-if-env-changed=THIRADUAN_LIB");
    println!("cargo:rerun-if-changed={}", folder.join("libthiraduan.a").display());
}
