//! Links libFuzzer's runtime, which has `main`, and the C++ library that it needs.

use std::fs::read_dir;
use std::path::{Path, PathBuf};
use std::process::ExitCode;

/// Where Debian's packages libclang-rt-N-dev keep theirs: in NAME/lib/clang/VERSION/lib/linux.
const LLVM: &str = "/usr/lib";
const RUNTIME: &str = "lib/linux/libclang_rt.fuzzer-x86_64.a";

fn main() -> ExitCode {
    println!("cargo:rerun-if-changed=build.rs");
    let llvms = folders(Path::new(LLVM), "llvm-").into_iter();
    let runtimes = llvms.flat_map(|llvm| folders(&llvm.join("lib/clang"), "")).map(|version| version.join(RUNTIME));
    let Some(runtime) = runtimes.filter(|runtime| runtime.is_file()).max() else {
        eprintln!("fuzz: libFuzzer's runtime is not there: Debian's package libclang-rt-14-dev brings it");
        return ExitCode::FAILURE;
    };
    println!("cargo:rustc-link-arg-bins={}", runtime.display());
    println!("cargo:rustc-link-arg-bins=-lstdc++");
    ExitCode::SUCCESS
}

fn folders(of: &Path, start: &str) -> Vec<PathBuf> {
    let entries = read_dir(of).into_iter().flatten().flatten();
    entries.filter(|entry| entry.file_name().to_string_lossy().starts_with(start)).map(|entry| entry.path()).collect()
}
