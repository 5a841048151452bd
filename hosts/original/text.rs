// The original's text: where it is, and the modules that are written around it. Both build scripts use this file.

use std::path::{Path, PathBuf};
use std::{env, fs};

/// The six files of the original's `src/reu`, each a module of the same name.
pub const FILES: [&str; 6] = ["constants", "dma", "memory", "registers", "reu", "timing"];

/// Gives the text of one source file by its name.
pub type Bodies<'a> = &'a dyn Fn(&str) -> String;

const RUN_REU_CYCLE: &str = "pub fn run_reu_cycle(";

/// The folder that holds the original's `src/reu` and `src/memory`, or the line that says that it is not there.
pub fn root() -> Result<PathBuf, String> {
    println!("cargo::rerun-if-env-changed=REU_ORIGINAL");
    let root = match env::var_os("REU_ORIGINAL") {
        Some(named) => PathBuf::from(named),
        None => manifest_folder().join("../../../shared/docs/src"),
    };
    println!("cargo::rerun-if-changed={}", root.display());
    let mut files = FILES.iter().map(|name| reu_file(&root, name)).chain([memory_file(&root)]);
    match files.find(|file| !file.is_file()) {
        Some(file) => Err(format!(
            "the original is missing ({} is not there): set REU_ORIGINAL to the folder that holds its src",
            file.display()
        )),
        None => Ok(root),
    }
}

pub fn manifest_folder() -> PathBuf {
    PathBuf::from(env::var_os("CARGO_MANIFEST_DIR").expect("cargo names the package's folder"))
}

pub fn reu_file(root: &Path, name: &str) -> PathBuf {
    root.join("src/reu").join(name).with_extension("rs")
}

fn memory_file(root: &Path) -> PathBuf {
    root.join("src/memory/memory.rs")
}

pub fn read(path: &Path) -> String {
    println!("cargo::rerun-if-changed={}", path.display());
    fs::read_to_string(path).unwrap_or_else(|error| panic!("{}: {error}", path.display()))
}

pub fn write_out(name: &str, text: &str) {
    let folder = PathBuf::from(env::var_os("OUT_DIR").expect("cargo names the output folder"));
    fs::write(folder.join(name), text).expect("the output folder can be written");
}

/// `run_reu_cycle` of the original's `src/memory/memory.rs`, word for word, with the attributes above it.
pub fn run_reu_cycle(root: &Path) -> String {
    let text = read(&memory_file(root));
    let signature = text.find(RUN_REU_CYCLE).expect("run_reu_cycle stands in the original's src/memory/memory.rs");
    let start = text[..signature].rfind("*/").map_or(signature, |comment| comment + 2);
    let mut depth = 0;
    for (at, letter) in text.char_indices().skip_while(|(at, _)| *at < signature) {
        match letter {
            '{' => depth += 1,
            '}' => depth -= 1,
            _ => continue,
        }
        if depth == 0 {
            return text[start..=at].to_string();
        }
    }
    panic!("run_reu_cycle has no end")
}

/// The modules `vic`, `memory`, `reu` and `machine` as the original's text expects them. `body` gives the text of
/// each file: the original's six by name, the host's own from `host/` with that folder's name in front.
pub fn modules(body: Bodies, run_reu_cycle: &str) -> String {
    let allow = "#[allow(dead_code, clippy::all)]";
    let mut text = String::new();
    let mut line = |part: &str| {
        text.push_str(part);
        text.push('\n');
    };
    line(&format!("{allow} pub mod vic {{\n{}\n}}", body("host/vic")));
    line(&format!("{allow} pub mod memory {{ pub mod memory {{"));
    line(&body("host/memory"));
    line(&format!("impl Memory {{\n{run_reu_cycle}\n}}\n}} }}"));
    line(&format!("{allow} pub mod reu {{"));
    for name in FILES {
        line(&format!("pub mod {name} {{\n{}", body(name)));
        // What reads and sets private fields stands in the module that owns them.
        match name {
            "memory" => line(&body("host/storage")),
            "reu" => line(&body("host/fields")),
            _ => {}
        }
        line("}");
    }
    line("pub use reu::{Reu, ReuC64Access};\npub(crate) use timing::ReuBusAction;\n}");
    line(&format!("{allow} pub mod machine {{\n{}\n}}", body("host/machine")));
    text
}
