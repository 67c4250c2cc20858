// Links the static library that `tools/build door` makes. GELMUSKA_LIB may name another folder that has it.
use std::env;
use std::path::PathBuf;

fn main() {
    let folder = match env::var_os("GELMUSKA_LIB") {
        Some(folder) => PathBuf::from(folder),
        None => PathBuf::from(env::var_os("CARGO_MANIFEST_DIR").expect("cargo sets it")).join("../../target/staticlib"),
    };
    println!("cargo:rerun-if-env-changed=GELMUSKA_LIB");
    println!("cargo:rerun-if-changed={}", folder.join("libdoor.a").display());
    println!("cargo:rustc-link-search=native={}", folder.display());
    println!("cargo:rustc-link-lib=static=door");
}
