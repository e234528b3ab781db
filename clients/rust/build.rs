//! Sets `locks_program` where `LOCKS_PROGRAM` names the program that tests start. Tests and
//! examples that need it are ignored elsewhere.

use std::env;

fn main() {
    println!("cargo::rerun-if-changed=build.rs");
    println!("cargo::rerun-if-env-changed=LOCKS_PROGRAM");
    if env::var_os("LOCKS_PROGRAM").is_some_and(|path| !path.is_empty()) {
        println!("cargo::rustc-cfg=locks_program");
    }
}
