// Says where the proved library is: in the folder that HAZOXE_LIB names, else where `rt lib` leaves it in this repository, or where
// `./install` puts it beside this crate; and how it is built, where it is not there.
use std::env;
use std::path::PathBuf;

const LIBRARY: &str = "libhazoxe_c.a";

fn main() {
    let here = PathBuf::from(env::var("CARGO_MANIFEST_DIR").unwrap());
    let (built, installed) = (here.join("../../crates/hazoxe_c/out"), here.join("../../../../lib"));
    let found = if installed.join(LIBRARY).exists() { installed } else { built };
    let folder = env::var_os("HAZOXE_LIB").map_or(found, PathBuf::from);
    println!("cargo:rerun-if-env-changed=HAZOXE_LIB");
    let library = folder.join(LIBRARY);
    println!("cargo:rerun-if-changed={}", library.display());
    if !library.exists() {
        println!("cargo:warning={} is not there: `rt lib` in crates/hazoxe_c builds it,", library.display());
        println!("cargo:warning=and HAZOXE_LIB names the folder where it is elsewhere; nothing links without it");
    }
    println!("cargo:rustc-link-search=native={}", folder.display());
    println!("cargo:rustc-link-lib=static=hazoxe_c");
}
