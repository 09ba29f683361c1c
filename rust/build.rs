// Links the proved receiver, the comparison of boards, the views of a table and the optimiser's end, which tools/archives builds in the folder
// above.
use std::path::Path;

fn main() {
    let here = std::env::var("CARGO_MANIFEST_DIR").expect("cargo sets it");
    let folder = Path::new(&here).join("../target/staticlib");
    println!("cargo:rustc-link-search=native={}", folder.display());
    for name in ["board", "same", "views", "optimiser"] {
        let library = folder.join(format!("lib{name}.a"));
        println!("cargo:rerun-if-changed={}", library.display());
        if !library.is_file() {
            eprintln!("{} is missing: run `bash tools/archives` in the repository's root first", library.display());
            std::process::exit(1);
        }
        println!("cargo:rustc-link-lib=static={name}");
    }
}
