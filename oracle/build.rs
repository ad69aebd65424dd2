//! Tells the program which compiler made it, for `oracle angles`.

use std::{env, process::Command};

fn main() {
    let rustc = env::var("RUSTC").unwrap_or_else(|_| "rustc".to_string());
    let version = Command::new(rustc)
        .arg("--version")
        .output()
        .map(|o| String::from_utf8_lossy(&o.stdout).trim().to_string())
        .unwrap_or_else(|_| "unknown".to_string());
    println!("cargo::rustc-env=ORACLE_RUSTC={version}");
    println!("cargo::rerun-if-changed=build.rs");
}
