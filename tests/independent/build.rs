//! Links the proved archives from the folder that TRACKSADDLE_ARCHIVES names.
//! Without it the library's own tests still build; the programs do not link.

use std::env;
use std::path::Path;

const FOLDER_VARIABLE: &str = "TRACKSADDLE_ARCHIVES";
const ARCHIVES: [&str; 2] = ["tracksaddle", "probe"];

fn main() {
    println!("cargo:rerun-if-changed=build.rs");
    println!("cargo:rerun-if-env-changed={FOLDER_VARIABLE}");
    match env::var(FOLDER_VARIABLE) {
        Ok(folder) => link_archives(Path::new(&folder)),
        Err(_) => println!(
            "cargo:warning={FOLDER_VARIABLE} is not set: only the library's own tests can be linked"
        ),
    }
}

fn link_archives(folder: &Path) {
    // Cargo runs this program in the package's folder, not in the caller's.
    assert!(
        folder.is_absolute(),
        "{FOLDER_VARIABLE} must be an absolute path, not {}",
        folder.display()
    );
    println!("cargo:rustc-link-search=native={}", folder.display());
    for name in ARCHIVES {
        let archive = folder.join(format!("lib{name}.a"));
        assert!(archive.is_file(), "{} is missing", archive.display());
        println!("cargo:rerun-if-changed={}", archive.display());
        println!("cargo:rustc-link-lib=static={name}");
    }
}
