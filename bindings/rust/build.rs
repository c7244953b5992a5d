//! Finds libgambozuri.a: in GAMBOZURI_LIB_DIR, or where pkg-config says that it is installed.

use std::env;
use std::process::Command;

fn main() {
    println!("cargo:rerun-if-changed=build.rs");
    println!("cargo:rerun-if-env-changed=GAMBOZURI_LIB_DIR");
    println!("cargo:rerun-if-env-changed=PKG_CONFIG_PATH");
    let named = env::var("GAMBOZURI_LIB_DIR").ok();
    match named.filter(|folder| !folder.is_empty()).or_else(installed) {
        Some(folder) => {
            println!("cargo:rustc-link-search=native={folder}");
            println!("cargo:rerun-if-changed={folder}/libgambozuri.a");
        }
        None => println!("cargo:warning=set GAMBOZURI_LIB_DIR to the folder of libgambozuri.a"),
    }
    println!("cargo:rustc-link-lib=static=gambozuri");
}

/// The folder that pkg-config names, if it knows the library.
fn installed() -> Option<String> {
    let answer = Command::new("pkg-config")
        .args(["--variable=libdir", "gambozuri"])
        .output()
        .ok()
        .filter(|answer| answer.status.success())?;
    let folder = String::from_utf8(answer.stdout).ok()?.trim().to_owned();
    Some(folder).filter(|folder| !folder.is_empty())
}
