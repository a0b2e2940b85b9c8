//! Links the archive, which `bin/library FOLDER` builds. REGEX_LITE_FOLDER names the folder.

use std::env;
use std::path::Path;
use std::process;

const ARCHIVE: &str = "libregex_lite.a";

fn main() {
    println!("cargo:rerun-if-env-changed=REGEX_LITE_FOLDER");
    let Some(folder) = env::var_os("REGEX_LITE_FOLDER") else {
        refuse("REGEX_LITE_FOLDER is not set");
    };
    let archive = Path::new(&folder).join(ARCHIVE);
    println!("cargo:rerun-if-changed={}", archive.display());
    if !Path::new(&folder).is_absolute() {
        refuse(&format!(
            "REGEX_LITE_FOLDER is {folder:?}, which is no absolute path"
        ));
    }
    if !archive.is_file() {
        refuse(&format!(
            "REGEX_LITE_FOLDER is {folder:?}, which holds no {ARCHIVE}"
        ));
    }
    println!(
        "cargo:rustc-link-search=native={}",
        Path::new(&folder).display()
    );
    println!("cargo:rustc-link-lib=static=regex_lite");
}

/// Ends the build, and says what to do.
fn refuse(missing: &str) -> ! {
    eprintln!("{missing}.");
    eprintln!(
        "This crate links the library of regex_lite. Build it by `bin/library FOLDER` in the \
         repository, and set REGEX_LITE_FOLDER to the absolute path of that folder."
    );
    process::exit(1);
}
