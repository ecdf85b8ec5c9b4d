//! Links the proved static library: the file that CODE_TREE_LIB names, or target/staticlib/libcodetree.a of the repository.
use std::env;
use std::path::PathBuf;
use std::process::exit;

fn main() {
    let here =
        PathBuf::from(env::var("CARGO_MANIFEST_DIR").expect("cargo sets CARGO_MANIFEST_DIR"));
    let archive = match env::var_os("CODE_TREE_LIB") {
        Some(path) => PathBuf::from(path),
        None => here.join("../../target/staticlib/libcodetree.a"),
    };
    println!("cargo:rerun-if-env-changed=CODE_TREE_LIB");
    println!("cargo:rerun-if-changed={}", archive.display());
    let Ok(archive) = archive.canonicalize() else {
        eprintln!("code_tree: no static library at {}", archive.display());
        eprintln!(
            "Make it with `tests/proofs/build library` in the repository, or name it in CODE_TREE_LIB."
        );
        exit(1);
    };
    let name = archive
        .file_name()
        .and_then(|n| n.to_str())
        .and_then(|n| n.strip_prefix("lib"))
        .and_then(|n| n.strip_suffix(".a"));
    let Some(name) = name else {
        eprintln!("code_tree: {} is not named lib<NAME>.a", archive.display());
        exit(1);
    };
    let folder = archive.parent().expect("a file stands in a folder");
    println!("cargo:rustc-link-search=native={}", folder.display());
    println!("cargo:rustc-link-lib=static={name}");
}
