mod text;

use std::env;

fn main() {
    let root = match text::root() {
        Ok(root) => root,
        Err(_) if env::var_os("CARGO_FEATURE_REQUIRED").is_none() => return,
        Err(missing) => return println!("cargo::error={missing}"),
    };
    println!("cargo::rustc-cfg=original");
    let included = |name: &str| {
        let path = match name.starts_with("host/") {
            true => text::manifest_folder().join(name).with_extension("rs"),
            false => text::reu_file(&root, name),
        };
        println!("cargo::rerun-if-changed={}", path.display());
        let path = path.canonicalize().unwrap_or_else(|error| panic!("{}: {error}", path.display()));
        format!("include!(r\"{}\");", path.display())
    };
    let modules = text::modules(&included, &text::run_reu_cycle(&root));
    text::write_out("original.rs", &modules);
}
