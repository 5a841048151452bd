#[path = "planted/table.rs"]
mod table;
#[path = "../original/text.rs"]
mod text;

use std::collections::HashMap;
use std::path::Path;
use table::{COUNT, Edit, MARKS, PLANTED, Planted, SHORT, SIZE};

/// The modules that a copy has of its own; elsewhere `crate::` is this program.
const OWN: [&str; 4] = ["memory", "vic", "reu", "machine"];
/// What only a copy with short ways has.
const WAYS: [&str; 2] = ["short", "ways"];
const HOST: [&str; 5] = ["host/vic", "host/memory", "host/storage", "host/fields", "host/machine"];

fn main() {
    match text::root() {
        Ok(root) => {
            println!("cargo::rustc-cfg=original");
            text::write_out("copies.rs", &copies(&sources(&root)));
        }
        Err(missing) => println!("cargo::warning={missing}"),
    }
}

/// Every text that a copy is made of, by name: the original's and what stands around it.
fn sources(root: &Path) -> HashMap<&'static str, String> {
    let here = text::manifest_folder();
    let mut sources = HashMap::new();
    for name in text::FILES {
        sources.insert(name, text::read(&text::reu_file(root, name)));
    }
    for name in HOST {
        sources.insert(name, text::read(&here.join("../original").join(name).with_extension("rs")));
    }
    sources.insert("run_reu_cycle", text::run_reu_cycle(root));
    sources.insert("accepted", text::read(&here.join("src/accepted.rs")));
    sources.insert("standin", text::read(&here.join("planted/standin.rs")));
    sources.insert("short", text::read(&here.join("src/short.rs")));
    sources.insert("ways", text::read(&here.join("planted/ways.rs")));
    sources
}

/// A text with an edit; what it replaces must stand there exactly once.
fn edited(text: &str, what: &str, edit: &Edit) -> String {
    let times = text.matches(edit.old).count();
    assert!(times == 1, "{what}: its text stands {times} times in {}", edit.file);
    text.replace(edit.old, edit.new)
}

/// What a copy is made for: to be right, or to have this bug; and whether it has short ways in front of the original's text.
#[derive(Clone, Copy)]
struct Made<'a> {
    planted: Option<&'a Planted>,
    short: bool,
}

impl<'a> Made<'a> {
    fn with(planted: &'a Planted) -> Self {
        Self { planted: Some(planted), short: planted.edits().any(|edit| WAYS.contains(&edit.file)) }
    }

    /// Whether only the calls differ from copy 0's, and not the modules that they are over.
    fn calls_alone(self) -> bool {
        let around = |file: &str| matches!(file, "accepted" | "standin") || WAYS.contains(&file);
        match self.planted {
            Some(planted) => planted.edits().all(|edit| around(edit.file)),
            None => self.short,
        }
    }
}

/// A text of a copy: with the count of granted cycles, the marks and the size, short ways if it has them, and a planted bug
/// if it stands there.
fn body(sources: &HashMap<&'static str, String>, name: &str, made: Made) -> String {
    let text = sources[name].replace("//!", "//");
    let short = if made.short { SHORT } else { &[] };
    let added = [("the count", COUNT), ("the marks", MARKS), ("the size", SIZE), ("the short ways", short)];
    let added = added.into_iter().flat_map(|(what, edits)| edits.iter().map(move |edit| (what, edit)));
    let of_bug = made.planted.into_iter().flat_map(|planted| planted.edits().map(move |edit| (planted.name, edit)));
    let edits = added.chain(of_bug);
    edits.filter(|(_, edit)| edit.file == name).fold(text, |text, (what, edit)| edited(&text, what, edit))
}

/// One copy as a module: the original's modules, and the sixteen calls over them. Where only the calls differ, they are over
/// copy 0's modules.
fn copy(sources: &HashMap<&'static str, String>, number: usize, made: Made) -> String {
    let body = |name: &str| body(sources, name, made);
    let calls_alone = made.calls_alone();
    let modules = if calls_alone { String::new() } else { text::modules(&body, &body("run_reu_cycle")) };
    let base = if calls_alone { 0 } else { number };
    let mut text = modules;
    let around = ["accepted", "standin"].into_iter().chain(WAYS.into_iter().filter(|_| made.short));
    around.for_each(|name| text.push_str(&format!("mod {name} {{\n{}\n}}\n", body(name))));
    text.push_str("pub use standin::call;\n");
    for module in OWN {
        text = text.replace(&format!("crate::{module}::"), &format!("crate::copies::copy{base}::{module}::"));
    }
    format!("#[allow(warnings, clippy::all)]\nmod copy{number} {{\n{text}}}\n")
}

/// Copy 0 is the original with the count, the marks and the size; copy N has the Nth planted bug. The last has short ways and
/// no bug.
fn copies(sources: &HashMap<&'static str, String>) -> String {
    let mut text = copy(sources, 0, Made { planted: None, short: false });
    let mut calls = String::from("copy0::call,");
    for (at, planted) in PLANTED.iter().enumerate() {
        for Edit { file, .. } in planted.edits() {
            assert!(sources.contains_key(file), "planted bug '{}': no file {file}", planted.name);
        }
        text.push_str(&copy(sources, at + 1, Made::with(planted)));
        calls.push_str(&format!(" copy{}::call,", at + 1));
    }
    let last = PLANTED.len() + 1;
    text.push_str(&copy(sources, last, Made { planted: None, short: true }));
    format!("{text}pub const COPIES: [CallOn; {last}] = [{calls}];\npub const SHORT: CallOn = copy{last}::call;\n")
}
