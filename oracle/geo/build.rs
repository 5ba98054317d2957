// Names the two files of the original, where GEO_SRC says they lie, as modules of this crate. They are not copied or changed.
use std::{env, fs, path::PathBuf};

fn main() {
    println!("cargo:rerun-if-env-changed=GEO_SRC");
    let folder = env::var("GEO_SRC").expect("GEO_SRC: the folder that holds ball_tree.rs and dbscan.rs of geo 0.33.1");
    let mut modules = String::new();
    for name in ["ball_tree", "dbscan"] {
        let file = PathBuf::from(&folder).join(format!("{name}.rs"));
        let file = fs::canonicalize(&file).unwrap_or_else(|e| panic!("{}: {e}", file.display()));
        println!("cargo:rerun-if-changed={}", file.display());
        modules += &format!("#[path = {:?}]\npub mod {name};\n", file.display().to_string());
    }
    fs::write(PathBuf::from(env::var("OUT_DIR").unwrap()).join("modules.rs"), modules).unwrap();
}
