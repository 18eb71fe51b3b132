//! Links the proved library: the archive that NDIGOMARR_ARCHIVE names; else, where this crate stands in its repository, a fresh one that
//! `tools/library` proves and writes there; else the installed library, as pkg-config tells.
use std::path::{Path, PathBuf};
use std::process::Command;

fn main() {
    println!("cargo:rerun-if-env-changed=NDIGOMARR_ARCHIVE");
    println!("cargo:rerun-if-changed=build.rs");
    let here = PathBuf::from(std::env::var_os("CARGO_MANIFEST_DIR").unwrap_or_default());
    let root = here.join("../..");
    let linked = match std::env::var_os("NDIGOMARR_ARCHIVE") {
        Some(given) => given_archive(Path::new(&given)),
        None if root.join("tools/library").exists() => proved_archive(&root),
        None => installed_library(),
    };
    if let Err(told) = linked {
        eprintln!("ndigomarr: {told}");
        std::process::exit(1);
    }
}

fn link(archive: &Path) -> Result<(), String> {
    let folder = archive.parent().filter(|folder| !folder.as_os_str().is_empty()).unwrap_or(Path::new("."));
    println!("cargo:rustc-link-search=native={}", folder.display());
    println!("cargo:rustc-link-lib=static=ndigomarr");
    Ok(())
}

fn given_archive(archive: &Path) -> Result<(), String> {
    // the linker looks for this name in the archive's folder
    let named = archive.file_name().is_some_and(|name| name == "libndigomarr.a");
    if !named || !archive.is_file() {
        let told = "set it to the path of a libndigomarr.a, or unset it";
        return Err(format!("NDIGOMARR_ARCHIVE is {}, which is no libndigomarr.a that is there; {told}", archive.display()));
    }
    println!("cargo:rerun-if-changed={}", archive.display());
    link(archive)
}

/// The archive itself is not watched, since this writes it: the sources are.
fn proved_archive(root: &Path) -> Result<(), String> {
    for source in ["crates", "crates.txt", "tools/library"] {
        println!("cargo:rerun-if-changed={}", root.join(source).display());
    }
    let kit = Command::new("rt").arg("help").output();
    if kit.is_err() {
        return Err("no archive of the proved library: install Rattle's kit, whose command rt is not found, or set NDIGOMARR_ARCHIVE to a libndigomarr.a".to_string());
    }
    let run = Command::new(root.join("tools/library")).output();
    match run {
        Ok(run) if run.status.success() => link(&root.join("target/lib/libndigomarr.a")),
        Ok(run) => {
            eprint!("{}", String::from_utf8_lossy(&run.stderr));
            Err("tools/library could not make the archive, for the reason above; mend it, or set NDIGOMARR_ARCHIVE to a libndigomarr.a".to_string())
        }
        Err(why) => Err(format!("tools/library cannot be run ({why}); set NDIGOMARR_ARCHIVE to a libndigomarr.a")),
    }
}

fn installed_library() -> Result<(), String> {
    println!("cargo:rerun-if-env-changed=PKG_CONFIG_PATH");
    let asked = Command::new("pkg-config").args(["--variable=libdir", "ndigomarr"]).output();
    let told = match asked {
        Ok(told) if told.status.success() => told.stdout,
        Ok(_) => return Err(concat!(
            "pkg-config knows no ndigomarr: run make install in Ndigomarr's repository and set PKG_CONFIG_PATH to PREFIX/lib/pkgconfig, ",
            "or set NDIGOMARR_ARCHIVE to a libndigomarr.a"
        )
        .to_string()),
        Err(_) => return Err("pkg-config is not installed: install it, or set NDIGOMARR_ARCHIVE to a libndigomarr.a".to_string()),
    };
    let folder = PathBuf::from(String::from_utf8_lossy(&told).trim());
    let archive = folder.join("libndigomarr.a");
    if !archive.is_file() {
        return Err(format!("pkg-config names {}, which has no libndigomarr.a: run make install again, or set NDIGOMARR_ARCHIVE to one", folder.display()));
    }
    given_archive(&archive)
}
