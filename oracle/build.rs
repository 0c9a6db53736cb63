//! Finds the Rust files, which are compiled unchanged, and writes the module declarations that name them by path.
//!
//! Their folder is `FGUMI_SRC`, or else `shared/docs/src` beside the repository. Two packages use this file: the driver,
//! and stand-ins/fgumi-records, in which modifications.rs is compiled a second time.

use std::path::{Path, PathBuf};
use std::{env, fs};

/// The name of a module, and its file.
type Original = (&'static str, &'static str);

const MODIFICATIONS: Original = ("modifications", "crates/fgumi-consensus/src/modifications.rs");
const DNA: Original = ("dna", "crates/fgumi-dna/src/dna.rs");
const OF_DRIVER: [Original; 3] =
    [("methylation", "crates/fgumi-consensus/src/methylation.rs"), MODIFICATIONS, DNA];
const OF_RECORDS: [Original; 3] = [("fields", "crates/fgumi-raw-bam/src/fields.rs"), MODIFICATIONS, DNA];

/// The folder of the Rust files. `root` leads from the package to the repository.
fn source_folder(root: &str) -> PathBuf {
    match env::var_os("FGUMI_SRC") {
        Some(named) => PathBuf::from(named),
        None => Path::new(&env::var_os("CARGO_MANIFEST_DIR").expect("cargo sets it"))
            .join(root)
            .join("../shared/docs/src"),
    }
}

fn declaration(folder: &Path, (name, file): (&str, &str)) -> String {
    let path = folder.join(file);
    let path = path.canonicalize().unwrap_or_else(|error| {
        panic!("{} is not at hand ({error}); FGUMI_SRC names the folder of the Rust files", path.display())
    });
    println!("cargo::rerun-if-changed={}", path.display());
    // Not all of a file is called from here, and the lints are upstream's own business.
    format!("#[allow(dead_code, clippy::all)]\n#[path = {path:?}]\npub mod {name};\n")
}

fn main() {
    println!("cargo::rerun-if-env-changed=FGUMI_SRC");
    let of_records = env::var("CARGO_PKG_NAME").is_ok_and(|name| name == "fgumi-records");
    let (originals, root) = if of_records { (OF_RECORDS, "../../..") } else { (OF_DRIVER, "..") };
    println!("cargo::rerun-if-changed={root}/oracle/build.rs");
    let folder = source_folder(root);
    let declarations: String = originals.map(|original| declaration(&folder, original)).concat();
    let out = Path::new(&env::var_os("OUT_DIR").expect("cargo sets it")).join("originals.rs");
    fs::write(out, declarations).expect("OUT_DIR can be written");
}
