//! Links the static library under comparison. OSP_LIB_DIR names its directory; a
//! relative one starts from this package. A self-test links nothing.

use std::env;
use std::path::PathBuf;

fn main() {
    if env::var_os("CARGO_FEATURE_SELF_TEST").is_some() {
        return;
    }
    let package = PathBuf::from(env::var_os("CARGO_MANIFEST_DIR").expect("set by cargo"));
    let given = env::var_os("OSP_LIB_DIR").unwrap_or_else(|| "../../target/staticlib".into());
    let directory = package.join(given);
    println!("cargo:rustc-link-search=native={}", directory.display());
    println!("cargo:rustc-link-lib=static=osp");
    println!("cargo:rerun-if-env-changed=OSP_LIB_DIR");
    println!(
        "cargo:rerun-if-changed={}",
        directory.join("libosp.a").display()
    );
}
