//! Links the engine's static library, which `rt lib` builds in crates/host.

use std::env;
use std::path::{absolute, PathBuf};
use std::process::ExitCode;

/// Names another folder that has the library.
const FOLDER: &str = "TELVRANG_LIB_DIR";

/// Where `rt lib` leaves it, from here.
const BUILT: &str = "../../crates/host/out";

fn main() -> ExitCode {
    println!("cargo:rerun-if-env-changed={FOLDER}");
    let named = env::var_os(FOLDER).unwrap_or_else(|| BUILT.into());
    // The compiler may run in another folder, so it is given the whole path.
    let folder = absolute(&named).unwrap_or_else(|_| PathBuf::from(&named));
    let library = folder.join("libhost.a");
    println!("cargo:rerun-if-changed={}", library.display());
    if !library.is_file() {
        eprintln!("telvrang: the engine's static library is not there: {}", library.display());
        eprintln!("telvrang: at the top of the repository, prove and build it: tools/built host     (./check builds it too)");
        eprintln!("telvrang: or name the folder that has libhost.a: {FOLDER}=FOLDER cargo build");
        return ExitCode::FAILURE;
    }
    println!("cargo:rustc-link-search=native={}", folder.display());
    println!("cargo:rustc-link-lib=static=host");
    ExitCode::SUCCESS
}
