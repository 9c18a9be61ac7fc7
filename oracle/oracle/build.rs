//! Lays camlib's text out as the module tree `dexel`, `dexel/sweep`, `tool` under OUT_DIR.
//! Package `oracle` changes no line of it; package `oracle_len` replaces exactly one.
//! Each file gets lines appended that declare a child module of our own, `opened`: a child sees its ancestors' private items.
//! sweep.rs also gets the merge loop of `preview_sweep_axis` once more, as a method, cut from the text by its first and last line.
use std::{env, fs, path::Path};

/// The text from `first` up to `last`, without it. Each must stand there once.
fn cut<'a>(text: &'a str, first: &str, last: &str) -> &'a str {
    let once = |s: &str| {
        assert_eq!(text.matches(s).count(), 1, "not exactly once in the text: {s:?}");
        text.find(s).unwrap()
    };
    let (a, b) = (once(first), once(last));
    assert!(a < b);
    &text[a..b]
}

fn main() {
    let here = env::var("CARGO_MANIFEST_DIR").unwrap();
    let out = env::var("OUT_DIR").unwrap();
    let folder = |name: &str| fs::canonicalize(Path::new(&here).join(name)).unwrap().display().to_string();
    let (text, own) = (folder("../camlib"), folder("../oracle/src"));
    let length_is_input = env::var("CARGO_PKG_NAME").unwrap() == "oracle_len";

    let read = |name: &str| {
        let path = format!("{text}/{name}");
        println!("cargo::rerun-if-changed={path}");
        fs::read_to_string(&path).unwrap_or_else(|e| panic!("{path}: {e}"))
    };
    let dexel = read("dexel.rs");
    let mut sweep = read("dexel/sweep.rs");
    let tool = read("tool.rs");

    let merge = cut(
        &sweep,
        "        let mut changes = vec![];\n        for (a, map) in hits.into_iter().enumerate() {\n",
        "        stats.changed_rays = changes.len();\n",
    );
    let merge = format!(
        "\nimpl DexelStock {{\n    fn merge_loop(&self, hits: [BTreeMap<usize, Hits>; 3], options: SweepOptions, \
         cancel: &impl CancelSignal) -> Result<Vec<RayChange>, String> {{\n{merge}        Ok(changes)\n    }}\n}}\n"
    );
    if length_is_input {
        let line = "    let length = d[0].hypot(d[1]);\n";
        assert_eq!(sweep.matches(line).count(), 1);
        sweep = sweep.replace(line, "    let length = crate::plan_length(d);\n");
    }

    let open = |file: &str| format!("\n#[path = \"{own}/{file}\"]\npub mod opened;\n");
    fs::create_dir_all(format!("{out}/dexel")).unwrap();
    fs::write(format!("{out}/dexel/mod.rs"), dexel + &open("open_dexel.rs")).unwrap();
    fs::write(format!("{out}/dexel/sweep.rs"), sweep + &merge + &open("open_sweep.rs")).unwrap();
    fs::write(format!("{out}/tool.rs"), tool + &open("open_tool.rs")).unwrap();
    fs::copy(format!("{own}/material.rs"), format!("{out}/dexel/material.rs")).unwrap();
    fs::write(
        format!("{out}/root.rs"),
        format!("#[path = \"{out}/dexel/mod.rs\"]\npub mod dexel;\n#[path = \"{out}/tool.rs\"]\npub mod tool;\n"),
    )
    .unwrap();
    println!("cargo::rerun-if-changed={own}/material.rs");
    println!("cargo::rerun-if-changed={own}/../build.rs");
}
