//! Says where libsivorandra.a is, and has it linked anew where it has changed: SIVORANDRA_LIB names its folder, else it is the repository's target/staticlib, or the lib beside an
//! installed share/sivorandra/rust.
use std::env;
use std::path::PathBuf;
use std::process::exit;

fn main() {
    println!("cargo:rerun-if-env-changed=SIVORANDRA_LIB");
    let here = PathBuf::from(env::var_os("CARGO_MANIFEST_DIR").expect("cargo sets it"));
    let given = env::var_os("SIVORANDRA_LIB");
    let installed = "../../../lib";
    let is_installed = given.is_none() && here.ends_with("share/sivorandra/rust") && here.join(installed).join("libsivorandra.a").is_file();
    let usual = if is_installed { installed } else { "../../target/staticlib" };
    let folder = here.join(given.as_ref().map_or(usual.into(), PathBuf::from));
    let archive = folder.join("libsivorandra.a");
    println!("cargo:rerun-if-changed={}", archive.display());
    if !archive.is_file() {
        eprintln!("sivorandra: {} is missing", archive.display());
        match given {
            Some(_) => eprintln!("sivorandra: SIVORANDRA_LIB names the folder that libsivorandra.a is in, the lib of an installed one or the repository's target/staticlib"),
            None => eprintln!("sivorandra: make it with tools/archive in the repository, or name the folder of an installed one: SIVORANDRA_LIB=PREFIX/lib"),
        }
        exit(1);
    }
    println!("cargo:rustc-link-search=native={}", folder.display());
}
