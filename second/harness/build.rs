//! Links the archive that the environment variable DRMCODER_ARCHIVE names by its absolute path.

use std::path::Path;

fn main() {
    println!("cargo:rerun-if-env-changed=DRMCODER_ARCHIVE");
    let archive = std::env::var("DRMCODER_ARCHIVE").unwrap_or_default();
    let Ok(archive) = Path::new(&archive).canonicalize() else {
        eprintln!("DRMCODER_ARCHIVE must be the absolute path of the archive, and is \"{archive}\"");
        std::process::exit(1);
    };
    println!("cargo:rerun-if-changed={}", archive.display());
    println!("cargo:rustc-link-arg={}", archive.display());
}
