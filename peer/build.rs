//! Links the proved archives into the comparison tests, the benchmark and the soak. The unit tests need none.

use std::env;
use std::path::Path;

/// The archive that a variable names, or the one that was made here.
fn archive(variable: &str, name: &str) -> String {
    println!("cargo:rerun-if-env-changed={variable}");
    let here = env::var("CARGO_MANIFEST_DIR").expect("cargo sets it");
    let made = Path::new(&here).join("../target/staticlib").join(name);
    let archive = env::var(variable).unwrap_or(made.display().to_string());
    println!("cargo:rerun-if-changed={archive}");
    archive
}

fn main() {
    let library = archive("GRIDPROFILE_ARCHIVE", "libgridprofile.a");
    println!("cargo:rustc-link-arg-tests={library}");
    println!("cargo:rustc-link-arg-bin=bench={library}");
    println!("cargo:rustc-link-arg-bin=soak={library}");
    let tiny = archive("GRIDPROFILE_TINY_ARCHIVE", "libtiny_sizes.a");
    println!("cargo:rustc-link-arg-tests={tiny}");
}
