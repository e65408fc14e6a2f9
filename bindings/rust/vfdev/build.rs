//! Links the archive: `VFDEV_NATIVE` names its folder, seen from the folder of the crate. Where it is unset, `lib` of an unpacked release has
//! it, or `bindings/native` of a clone. An installed vfdev and a release have one archive, `libvfdev.a`; a clone has its parts.
use std::env;
use std::path::PathBuf;

fn main() {
    let here = PathBuf::from(
        env::var_os("CARGO_MANIFEST_DIR").expect("cargo sets the folder of the crate"),
    );
    let native = match env::var_os("VFDEV_NATIVE") {
        Some(folder) => here.join(folder),
        None if here.join("../../../lib/libvfdev.a").exists() => here.join("../../../lib"),
        None => here.join("../../native"),
    };
    println!("cargo:rustc-link-search=native={}", native.display());
    let archives: &[&str] = match native.join("libvfdev.a").exists() {
        true => &["vfdev"],
        false => &["vfdev_c", "libc_c"],
    };
    for archive in archives {
        println!("cargo:rustc-link-lib=static={archive}");
        // (programs that others put beside the archives change nothing here)
        let file = native.join(format!("lib{archive}.a"));
        println!("cargo:rerun-if-changed={}", file.display());
    }
    if !native.join(format!("lib{}.a", archives[0])).exists() {
        println!(
            "cargo:warning=there is no archive in {}: in a clone bindings/test makes it there, and VFDEV_NATIVE names another \
             folder, as lib of an installed vfdev",
            native.display()
        );
    }
    println!("cargo:rerun-if-env-changed=VFDEV_NATIVE");
}
