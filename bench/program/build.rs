//! Links the archive, the plain C code and OpenSSL. bench/run sets the names.

fn main() {
    for name in ["NCC_ARCHIVE", "NCC_PLAIN"] {
        println!("cargo:rerun-if-env-changed={name}");
        let Ok(file) = std::env::var(name) else {
            println!("cargo:warning={name} is not set; run bench/run");
            std::process::exit(1);
        };
        println!("cargo:rerun-if-changed={file}");
        println!("cargo:rustc-link-arg={file}");
    }
    println!("cargo:rustc-link-arg=-lcrypto");
    // Set if the archive has a function of its own for the permutation.
    println!("cargo:rerun-if-env-changed=NCC_PERMUTATION");
    println!("cargo:rustc-check-cfg=cfg(permutation)");
    if std::env::var("NCC_PERMUTATION").is_ok_and(|value| value == "yes") {
        println!("cargo:rustc-cfg=permutation");
    }
}
