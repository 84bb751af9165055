//! Finds the original's sources and writes the module tree that compiles them, unchanged.
//!
//! `crc32.rs` and `stored.rs` are compiled where they stand. `format.rs` is compiled from a copy: its text, unchanged, and behind it
//! the declaration of one child module, `src/inner.rs`, which sees what the file keeps private.
//!
//! `IRONFIX_SRC` names the folder; else it is `shared/docs/src` beside the repository. Either the original's own
//! tree (`ironfix-store/src/file/format.rs`) or the flat copies (`src--ironfix-store--src--file--format.rs.txt`) will do.

use std::env;
use std::fs;
use std::path::{Path, PathBuf};

const CRC32: &str = "ironfix-store/src/file/crc32.rs";
const FORMAT: &str = "ironfix-store/src/file/format.rs";
const STORED: &str = "ironfix-store/src/stored.rs";

fn main() {
    println!("cargo::rerun-if-env-changed=IRONFIX_SRC");
    let folder = folder();
    let out = PathBuf::from(env::var_os("OUT_DIR").expect("cargo sets OUT_DIR"));
    let tree = format!(
        "#[allow(dead_code)]\n\
         mod file {{\n\
         \x20   #[path = {:?}]\n\
         \x20   pub(crate) mod crc32;\n\
         \x20   #[path = {:?}]\n\
         \x20   pub(crate) mod format;\n\
         \x20   pub(crate) use crate::standins::index;\n\
         }}\n\
         #[allow(dead_code)]\n\
         #[path = {:?}]\n\
         mod stored;\n",
        source(&folder, CRC32),
        with_inner(&source(&folder, FORMAT), out.join("format.rs")),
        source(&folder, STORED),
    );
    write(&out.join("original.rs"), &tree);
}

/// The folder of the sources.
fn folder() -> PathBuf {
    match env::var_os("IRONFIX_SRC") {
        Some(named) => PathBuf::from(named),
        None => Path::new(env!("CARGO_MANIFEST_DIR")).join("../../shared/docs/src"),
    }
}

/// The file that holds one source, as an absolute path.
fn source(folder: &Path, path: &str) -> PathBuf {
    let tree = folder.join(path);
    let flat = folder.join(format!("src--{}.txt", path.replace('/', "--")));
    let found = [tree, flat].into_iter().find(|file| file.is_file());
    let Some(file) = found else {
        stop(&format!(
            "the original's {path} is not in {}: set IRONFIX_SRC to the folder that holds the IronFix sources",
            folder.display()
        ));
    };
    println!("cargo::rerun-if-changed={}", file.display());
    fs::canonicalize(&file).unwrap_or_else(|err| stop(&format!("cannot find {}: {err}", file.display())))
}

/// A copy of one source with the child module declared behind its last line.
fn with_inner(file: &Path, copy: PathBuf) -> PathBuf {
    let text = fs::read_to_string(file).unwrap_or_else(|err| stop(&format!("cannot read {}: {err}", file.display())));
    let inner = Path::new(env!("CARGO_MANIFEST_DIR")).join("src/inner.rs");
    write(&copy, &format!("{text}\n#[path = {inner:?}]\npub(crate) mod inner;\n"));
    copy
}

fn write(file: &Path, text: &str) {
    fs::write(file, text).unwrap_or_else(|err| stop(&format!("cannot write {}: {err}", file.display())));
}

fn stop(message: &str) -> ! {
    eprintln!("oracle: {message}");
    std::process::exit(1);
}
