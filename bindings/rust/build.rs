//! Decides which library the crate stands on.
//!
//! - `STO_LIB_DIR` is set: the archive `libsto.a` of that directory.
//! - the feature `installed`: what `pkg-config sto` finds; without one the build fails.
//! - else: the plain sources, which `../plain/plain.py` makes of the proved ones, and which are compiled with the crate.
//!
//! `sto::build()` tells what it is when the program runs.
use std::path::{Path, PathBuf};
use std::process::Command;
use std::{env, fs};

fn main() {
    let module = PathBuf::from(env::var_os("OUT_DIR").expect("cargo sets OUT_DIR")).join("library.rs");
    println!("cargo:rerun-if-env-changed=STO_LIB_DIR");
    let text = match archive_folder() {
        Some(folder) => {
            println!("cargo:rerun-if-changed={folder}/libsto.a");
            println!("cargo:rustc-link-search=native={folder}");
            println!("cargo:rustc-link-lib=static=sto");
            String::new()
        }
        None => format!("#[path = {:?}]\nmod plain;\n", plain_sources(&module.with_file_name("plain"))),
    };
    fs::write(&module, text).expect("OUT_DIR can be written to");
}

/// The folder of the archive that is to be linked, if one is.
fn archive_folder() -> Option<String> {
    if let Ok(folder) = env::var("STO_LIB_DIR") {
        return Some(folder);
    }
    env::var_os("CARGO_FEATURE_INSTALLED")?;
    let found = Command::new("pkg-config").args(["--variable=libdir", "sto"]).output();
    let folder = found.ok().filter(|it| it.status.success()).and_then(|it| String::from_utf8(it.stdout).ok());
    Some(folder.expect("the feature `installed` wants an installed library: `pkg-config sto` finds none").trim().to_string())
}

/// Makes the plain sources in a folder, and returns their first file.
fn plain_sources(to: &Path) -> PathBuf {
    let script = Path::new(env!("CARGO_MANIFEST_DIR")).join("../plain/plain.py");
    for it in ["../plain", "../../crates", "../../crates.txt", "../../include"] {
        println!("cargo:rerun-if-changed={it}");
    }
    let python = env::var_os("PYTHON").unwrap_or_else(|| "python3".into());
    let ran = Command::new(python).arg("-B").arg(&script).arg(to).status();
    let made = ran.map(|it| it.success()).unwrap_or(false);
    assert!(made, "{} did not make the plain sources: it wants python3, and the repository around it", script.display());
    to.join("mod.rs")
}
