//! Links libavrogate: the archive in AVROGATE_FOLDER/lib, where the environment has that word (a folder that
//! tools/library.sh made), and else what pkg-config finds.
use std::env;
use std::process::Command;

fn main() {
    println!("cargo:rerun-if-env-changed=AVROGATE_FOLDER");
    println!("cargo:rerun-if-env-changed=PKG_CONFIG_PATH");
    if let Ok(folder) = env::var("AVROGATE_FOLDER") {
        println!("cargo:rustc-link-search=native={folder}/lib");
        println!("cargo:rustc-link-lib=static=avrogate");
        return;
    }
    let found = Command::new("pkg-config")
        .args(["--libs-only-L", "avrogate"])
        .output();
    let found = found.expect("pkg-config is wanted, or AVROGATE_FOLDER");
    assert!(
        found.status.success(),
        "pkg-config knows no avrogate: {}",
        String::from_utf8_lossy(&found.stderr)
    );
    for word in String::from_utf8_lossy(&found.stdout).split_whitespace() {
        println!(
            "cargo:rustc-link-search=native={}",
            word.trim_start_matches("-L")
        );
    }
    println!("cargo:rustc-link-lib=avrogate");
}
