//! Lays out canboat's files in OUT_DIR, byte for byte, and appends to two of them one line that declares a child module: a child
//! sees its parent's private items, so that states can be read and made while nothing of canboat's text is changed.
//!
//! The files come from the folder CANBOAT_SRC, by default the papers' folder beside this repository, and are held to
//! SHA256SUMS. CANBOAT_EDITED=1 leaves that test out: edits.sh uses it to build edited copies, which must then be told apart.
use std::path::Path;
use std::process::Command;
use std::{env, fs};

/// canboat's file below src/, and the child module that it gets.
const FILES: &[(&str, Option<&str>)] = &[
    ("engine/frame.rs", None),
    ("engine/format/ngt1.rs", Some("access_ngt1.rs")),
    ("engine/codec/ngt1_tx_list.rs", Some("access_tx_list.rs")),
];

fn main() {
    let here = env::var("CARGO_MANIFEST_DIR").unwrap();
    let out = env::var("OUT_DIR").unwrap();
    let papers = env::var("CANBOAT_SRC").unwrap_or_else(|_| format!("{here}/../../shared/docs/src"));
    for name in ["CANBOAT_SRC", "CANBOAT_EDITED"] {
        println!("cargo:rerun-if-env-changed={name}");
    }
    println!("cargo:rerun-if-changed={here}/SHA256SUMS");
    if env::var("CANBOAT_EDITED").is_err() {
        let sums = Command::new("sha256sum")
            .args(["--check", "--quiet", &format!("{here}/SHA256SUMS")])
            .current_dir(&papers)
            .status()
            .expect("sha256sum, in the folder of canboat's sources");
        assert!(sums.success(), "canboat's sources are not as published");
    }
    for (file, child) in FILES {
        let from = format!("{papers}/crates/canboat/src/{file}");
        println!("cargo:rerun-if-changed={from}");
        let mut text = fs::read_to_string(&from).expect("a file of canboat's sources");
        if let Some(child) = child {
            let path = format!("{here}/glue/{child}");
            println!("cargo:rerun-if-changed={path}");
            text.push_str(&format!("\n#[path = {path:?}]\npub mod access;\n"));
        }
        let to = format!("{out}/{file}");
        fs::create_dir_all(Path::new(&to).parent().unwrap()).unwrap();
        fs::write(to, text).unwrap();
    }
    // The modules above these files: nothing but their declarations.
    let module = |file: &str| format!("#[path = {:?}]\npub ", format!("{out}/engine/{file}"));
    let root = format!(
        "pub mod engine {{\n{}mod frame;\npub mod format {{\n{}mod ngt1;\n}}\npub mod codec {{\n{}mod ngt1_tx_list;\n}}\n}}\n",
        module("frame.rs"),
        module("format/ngt1.rs"),
        module("codec/ngt1_tx_list.rs"),
    );
    fs::write(format!("{out}/canboat.rs"), root).unwrap();
}
