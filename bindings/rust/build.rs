// Links crates/controller_c/out/libcontroller_c.a of this repository, or of the folder that OPEN_CONTROLLER_LIB names.
use std::env;
use std::path::PathBuf;

fn main() {
    let default = PathBuf::from(env::var("CARGO_MANIFEST_DIR").unwrap()).join("../../crates/controller_c/out");
    let folder = env::var("OPEN_CONTROLLER_LIB").map(PathBuf::from).unwrap_or(default);
    println!("cargo:rustc-link-search=native={}", folder.display());
    println!("cargo:rustc-link-lib=static=controller_c");
    println!("cargo:rerun-if-changed={}", folder.join("libcontroller_c.a").display());
    println!("cargo:rerun-if-env-changed=OPEN_CONTROLLER_LIB");
}
