//! Finds `libqaudit.a`: in the folder that `QAUDIT_LIB_DIR` names, or else in `bin/` of the
//! repository or `lib/` of a release.
use std::env;
use std::path::PathBuf;

fn main() {
    println!("cargo:rerun-if-env-changed=QAUDIT_LIB_DIR");
    let here =
        PathBuf::from(env::var_os("CARGO_MANIFEST_DIR").expect("cargo says where the crate is"));
    let built = here.join("../../bin");
    let near = if built.join("libqaudit.a").exists() {
        built
    } else {
        here.join("../../lib")
    };
    let folder = env::var_os("QAUDIT_LIB_DIR").map_or(near, PathBuf::from);
    println!(
        "cargo:rerun-if-changed={}",
        folder.join("libqaudit.a").display()
    );
    println!("cargo:rustc-link-search=native={}", folder.display());
    println!("cargo:rustc-link-lib=static=qaudit");
}
