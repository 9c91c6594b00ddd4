//! Copies the reference's files byte for byte to where `include!` finds them. The proved code is linked by the crate pai1.
use std::path::{Path, PathBuf};
use std::{env, fs};

/// The reference's files, below nnbfl/src.
const FILES: [&str; 11] = [
    "core/cursor.rs",
    "core/error.rs",
    "core/mod.rs",
    "core/section.rs",
    "core/writer.rs",
    "bflan/anim_info.rs",
    "bflan/anim_tag.rs",
    "bflan/curves.rs",
    "bflan/file.rs",
    "bflan/targets.rs",
    "ui2d/userdata.rs",
];

fn main() {
    println!("cargo::rerun-if-changed=build.rs");
    let here = PathBuf::from(env::var_os("CARGO_MANIFEST_DIR").unwrap());
    copy_reference(&here);
}

/// Copies the reference to OUT_DIR/nnbfl. `core/mod.rs` declares a module `tests`, whose file is not among the files that
/// this was made from: it is given an empty one, so that no file of the reference has to change.
fn copy_reference(here: &Path) {
    println!("cargo::rerun-if-env-changed=NNBFL_SRC");
    let given = env::var("NNBFL_SRC").unwrap_or_else(|_| "reference".to_owned());
    let source = here.join(&given).join("nnbfl/src");
    let copy = PathBuf::from(env::var_os("OUT_DIR").unwrap()).join("nnbfl");
    for folder in ["core", "bflan", "ui2d"] {
        fs::create_dir_all(copy.join(folder)).unwrap();
    }
    for file in FILES {
        let from = source.join(file);
        println!("cargo::rerun-if-changed={}", from.display());
        let bytes = fs::read(&from).unwrap_or_else(|e| {
            panic!("{}: {e}. rust/README.md says how to get the reference (nnbfl, commit af30eaf9a9)", from.display())
        });
        fs::write(copy.join(file), bytes).unwrap();
    }
    fs::write(copy.join("core/tests.rs"), "").unwrap();
}
