//! Finds `libawdl.a` and has it linked: where `AWDL_ARCHIVE` says, a folder or a file, or else where `board/build` puts it.
use std::path::PathBuf;
use std::{env, process};

fn main() {
    println!("cargo:rerun-if-env-changed=AWDL_ARCHIVE");
    let target = match env::var("CARGO_CFG_TARGET_ARCH").unwrap_or_default().as_str() {
        "x86_64" => "x86-64".to_string(),
        other => other.to_string(),
    };
    let package = PathBuf::from(env::var_os("CARGO_MANIFEST_DIR").unwrap_or_default());
    // A relative path counts from the package, since that is where cargo runs this.
    let archive = match env::var_os("AWDL_ARCHIVE").map(|given| package.join(given)) {
        Some(folder) if folder.is_dir() => folder.join("libawdl.a"),
        Some(file) => file,
        None => package.join("../../target/board").join(&target).join("libawdl.a"),
    };
    let (Some(folder), Some(name), true) = (archive.parent(), archive.file_name(), archive.is_file()) else {
        eprintln!("awdl: there is no archive at {}", archive.display());
        eprintln!("awdl: `board/build {target}` makes it; another one is named by AWDL_ARCHIVE, a folder that holds libawdl.a or the archive itself");
        process::exit(1);
    };
    println!("cargo:rerun-if-changed={}", archive.display());
    println!("cargo:rustc-link-search=native={}", folder.display());
    println!("cargo:rustc-link-lib=static:+verbatim={}", name.to_string_lossy());
}
