//! Copies the six source files to OUT_DIR, where lib.rs includes them. Only these things change:
//! leading `//!` lines go (an included file can't have them), what is private becomes visible,
//! and in the package `interflect_formula` `acos` becomes document 01's formula, and its two
//! differences are put in.

use std::env;
use std::fs;
use std::path::{Path, PathBuf};

const FILES: [&str; 6] = ["sdf", "bvh", "scene", "ltc", "trace", "shade"];

fn main() {
    println!("cargo:rerun-if-changed=../interflect/build.rs");
    println!("cargo:rerun-if-env-changed=INTERFLECT_SRC");
    let source = env::var_os("INTERFLECT_SRC").map_or_else(beside_the_repository, PathBuf::from);
    let out = PathBuf::from(env::var_os("OUT_DIR").unwrap());
    let formula = env::var("CARGO_PKG_NAME").unwrap() == "interflect_formula";

    for file in FILES {
        let from = source.join(file).with_extension("rs");
        println!("cargo:rerun-if-changed={}", from.display());
        let text = fs::read_to_string(&from).unwrap_or_else(|e| {
            let from = from.display();
            panic!("can't read {from}: {e} (INTERFLECT_SRC can name the source's folder)")
        });
        let mut text = visible(&without_heading(&text));
        if formula {
            text = with_formula(file, text);
        }
        fs::write(out.join(file).with_extension("rs"), text).unwrap();
    }
}

fn beside_the_repository() -> PathBuf {
    Path::new(&env::var_os("CARGO_MANIFEST_DIR").unwrap()).join("../../../shared/docs/src/src")
}

fn without_heading(text: &str) -> String {
    let lines = text.lines().skip_while(|line| line.starts_with("//!"));
    lines.flat_map(|line| [line, "\n"]).collect()
}

/// Puts `pub` before each private item of the file and each private field of its structs.
fn visible(text: &str) -> String {
    let mut out = String::new();
    let mut in_struct = false;
    for line in text.lines() {
        let item = ["fn ", "struct ", "const "].iter().any(|word| line.starts_with(word));
        let field = in_struct
            && line.strip_prefix("    ").is_some_and(|l| l.starts_with(|c: char| c.is_ascii_lowercase()))
            && !line.starts_with("    pub ");
        if item {
            out.push_str("pub ");
            out.push_str(line);
        } else if field {
            out.push_str("    pub ");
            out.push_str(&line[4..]);
        } else {
            out.push_str(line);
        }
        out.push('\n');
        if line.trim_start_matches("pub ").starts_with("struct ") {
            in_struct = line.ends_with('{');
        } else if line == "}" {
            in_struct = false;
        }
    }
    out
}

/// Document 01's arc cosine and differences, each in the one place that it has.
fn with_formula(file: &str, text: String) -> String {
    let places: &[(&str, &str)] = match file {
        "ltc" => &[
            ("cos_t.acos()", "crate::acos::formula(cos_t)"),
            (
                "if (da >= 0.0) != (db >= 0.0) {",
                "if (da >= 0.0) != (db >= 0.0) && crate::differences::room(n, out.len()) {",
            ),
        ],
        "shade" => &[(
            "let l = (rep - p).normalize();",
            "if crate::differences::no_way((rep - p).length()) {
            continue;
        }
        let l = (rep - p).normalize();",
        )],
        _ => &[],
    };
    assert_eq!(text.matches(".acos()").count(), usize::from(file == "ltc"), "{file}.rs: arc cosines");
    places.iter().fold(text, |text, (theirs, ours)| {
        assert_eq!(text.matches(theirs).count(), 1, "{file}.rs has `{theirs}` once");
        text.replace(theirs, ours)
    })
}
