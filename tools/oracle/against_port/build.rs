//! Links the port's archive: PORT names its folder, by default crates/capi/out of the repository.
use std::{env, path::Path};

fn main() {
    println!("cargo:rerun-if-env-changed=PORT");
    let root = Path::new(&env::var("CARGO_MANIFEST_DIR").unwrap()).join("../../..");
    let folder = root.join(env::var("PORT").unwrap_or_else(|_| "crates/capi/out".into()));
    println!(
        "cargo:rerun-if-changed={}",
        folder.join("libcapi.a").display()
    );
    println!("cargo:rustc-link-search=native={}", folder.display());
    println!("cargo:rustc-link-lib=static=capi");
}
