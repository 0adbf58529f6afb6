//! Links our archive, whose path is in AWDL_ARCHIVE.
fn main() {
    println!("cargo:rerun-if-env-changed=AWDL_ARCHIVE");
    let archive = std::env::var("AWDL_ARCHIVE").expect("AWDL_ARCHIVE is the path of libawdl.a");
    println!("cargo:rerun-if-changed={archive}");
    println!("cargo:rustc-link-arg={archive}");
}
