//! Where librokemaipu.a of the processor that is built for stands.

fn main() {
    let processor = std::env::var("CARGO_CFG_TARGET_ARCH").unwrap();
    let folder = std::fs::canonicalize("..").unwrap().join("target/lib").join(processor);
    println!("cargo:rustc-link-search=native={}", folder.display());
    println!("cargo:rerun-if-changed={}", folder.join("librokemaipu.a").display());
}
