// Links the archive of `make library`, from the folder NAUSTVRI_ARCHIVE or from the repository's target/.

use std::env;
use std::path::PathBuf;
use std::process;

fn refuse(why: &str) -> ! {
    eprintln!("naustvri: {why}");
    process::exit(1);
}

// The folder of the archive. Cargo builds each package in a folder of its own, so that a relative path means nothing here.
fn folder() -> PathBuf {
    match env::var_os("NAUSTVRI_ARCHIVE").map(PathBuf::from) {
        Some(named) if named.is_absolute() => named,
        Some(named) => refuse(&format!(
            "NAUSTVRI_ARCHIVE is a relative path, {}: give the whole path of the folder that has libnaustvri.a",
            named.display()
        )),
        None => PathBuf::from(env::var_os("CARGO_MANIFEST_DIR").unwrap()).join("../target/staticlib"),
    }
}

fn main() {
    let folder = folder();
    let archive = folder.join("libnaustvri.a");
    println!("cargo:rerun-if-env-changed=NAUSTVRI_ARCHIVE");
    println!("cargo:rerun-if-changed={}", archive.display());
    if !archive.is_file() {
        refuse(&format!(
            "there is no {}: build it by `make library`, or name the folder that has it in NAUSTVRI_ARCHIVE",
            archive.display()
        ));
    }
    println!("cargo:rustc-link-search=native={}", folder.display());
    println!("cargo:rustc-link-lib=static=naustvri");
}
