//! Finds the archive of the proved parser and has it linked.

use std::env;
use std::path::PathBuf;
use std::process::exit;

/// The variable that names an archive elsewhere.
const VARIABLE: &str = "SML_PARSE_ARCHIVE";

/// Where `tools/archive` leaves the archive, from this folder.
const USUAL: &str = "../../target/staticlib/libsml_parse.a";

fn fail(message: &str) -> ! {
    eprintln!("sml_reader: {message}");
    exit(1)
}

fn archive() -> PathBuf {
    let folder = PathBuf::from(env::var_os("CARGO_MANIFEST_DIR").expect("cargo sets it"));
    let path = env::var_os(VARIABLE).map_or_else(|| folder.join(USUAL), PathBuf::from);
    match path.canonicalize() {
        Ok(path) if path.ends_with("libsml_parse.a") => path,
        Ok(path) => fail(&format!("{} is not named libsml_parse.a", path.display())),
        Err(_) => fail(&format!(
            "there is no archive {}\nMake it: run `tools/archive` at the top of the repository \
             (many minutes, the first time).\nOr name one by the variable {VARIABLE}.",
            path.display()
        )),
    }
}

fn main() {
    println!("cargo:rerun-if-env-changed={VARIABLE}");
    let target = env::var("CARGO_CFG_TARGET_ARCH").unwrap_or_default();
    if target != "x86_64" {
        fail(&format!("the archive is for x86_64, not for {target}"));
    }
    let path = archive();
    let folder = path.parent().expect("a file stands in a folder");
    println!("cargo:rerun-if-changed={}", path.display());
    println!("cargo:rustc-link-search=native={}", folder.display());
    println!("cargo:rustc-link-lib=static=sml_parse");
    println!("cargo:rustc-env=SML_PARSE_LINKED={}", path.display());
}
