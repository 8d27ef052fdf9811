//! Where liblzk is: LZK_LIB_DIR, or what pkg-config says of `lzk`, or `.build` of this checkout; `.build/aarch64` for 64-bit ARM.
use std::path::Path;
use std::process::Command;

fn main() {
    println!("cargo:rerun-if-env-changed=LZK_LIB_DIR");
    println!("cargo:rerun-if-env-changed=PKG_CONFIG_PATH");
    let here = std::env::var("CARGO_MANIFEST_DIR").expect("cargo sets it");
    let is_cross = std::env::var("HOST") != std::env::var("TARGET");
    let is_arm = std::env::var("CARGO_CFG_TARGET_ARCH").as_deref() == Ok("aarch64");
    let built = Path::new(&here).join(if is_arm && is_cross {
        "../../.build/aarch64"
    } else {
        "../../.build"
    });
    let folder = std::env::var("LZK_LIB_DIR")
        .ok()
        .or_else(|| from_pkg_config(is_cross))
        .or_else(|| {
            built
                .join("liblzk.a")
                .exists()
                .then(|| built.display().to_string())
        });
    let Some(folder) = folder else {
        panic!("liblzk is missing: make it by ./build library, install it by ./build install, or name its folder by LZK_LIB_DIR");
    };
    println!("cargo:rerun-if-changed={folder}/liblzk.a");
    println!("cargo:rustc-link-search=native={folder}");
    println!("cargo:rustc-link-lib=static=lzk");
}

// What pkg-config says is of this machine, unless it is told where another's files are.
fn from_pkg_config(is_cross: bool) -> Option<String> {
    if is_cross && std::env::var_os("PKG_CONFIG_LIBDIR").is_none() {
        return None;
    }
    let found = Command::new("pkg-config")
        .args(["--variable=libdir", "lzk"])
        .output()
        .ok()?;
    let folder = String::from_utf8(found.stdout).ok()?.trim().to_owned();
    (found.status.success() && !folder.is_empty()).then_some(folder)
}
