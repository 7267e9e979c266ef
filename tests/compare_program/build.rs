//! Links the archive that the environment names, and links again when it changes.

fn main() {
    println!("cargo:rerun-if-env-changed=NCC_ARCHIVE");
    let Ok(archive) = std::env::var("NCC_ARCHIVE") else {
        println!("cargo:warning=set NCC_ARCHIVE to the archive of the C interface, or run tests/compare");
        std::process::exit(1);
    };
    println!("cargo:rerun-if-changed={archive}");
    println!("cargo:rustc-link-arg={archive}");
}
