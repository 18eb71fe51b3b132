//! Where the archive of `tools/library` is linked from.
use std::env;
use std::path::PathBuf;

fn main() {
    println!("cargo:rerun-if-env-changed=NDIGOMARR_ARCHIVE");
    if env::var("CARGO_FEATURE_LINKED").is_ok() {
        let archive = PathBuf::from(env::var_os("NDIGOMARR_ARCHIVE").unwrap_or_default());
        let named = archive.file_name().is_some_and(|name| name == "libndigomarr.a");
        assert!(named, "NDIGOMARR_ARCHIVE is {:?}; set it to the path of a libndigomarr.a, which tools/library prints", archive.display());
        println!("cargo:rerun-if-changed={}", archive.display());
        println!("cargo:rustc-link-search=native={}", archive.parent().expect("the archive has no folder").display());
        println!("cargo:rustc-link-lib=static=ndigomarr");
    }
}
