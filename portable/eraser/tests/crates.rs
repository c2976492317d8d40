//! The repository's own crates.

use eraser::erase::{erase, Place};
use eraser::package::{ghostless, package, read};
use std::collections::BTreeSet;
use std::path::{Path, PathBuf};

fn root() -> PathBuf {
    Path::new(env!("CARGO_MANIFEST_DIR")).join("../..")
}

fn words(text: &str) -> Vec<&str> {
    text.split(|c: char| !(c.is_ascii_alphanumeric() || c == '_'))
        .collect()
}

fn functions(text: &str) -> usize {
    let code: String = text
        .lines()
        .filter(|l| !l.trim_start().starts_with("//"))
        .collect::<Vec<_>>()
        .join("\n");
    words(&code).iter().filter(|w| **w == "fn").count()
}

#[test]
fn every_line_keeps_its_place_and_no_ghost_text_is_left() {
    let sources = read(&root()).unwrap_or_else(|e| panic!("{e}"));
    let p = package(&sources).unwrap_or_else(|e| panic!("{e}"));
    let plain = ghostless(&sources).unwrap_or_else(|e| panic!("{e}"));
    assert_eq!(p.sources, sources.files.len());
    let mut all = 0;
    for s in &sources.files {
        let name = format!(
            "{}/{}.rs",
            s.krate,
            if s.stem == "lib" { "mod" } else { &s.stem }
        );
        let made = &p.files[&name];
        assert!(
            made.starts_with(&format!("/* Made from {}; not to be edited. */ ", s.file)),
            "{name}"
        );
        assert_eq!(functions(&s.text), functions(made), "{name}");
        all += functions(made);
        for text in [made, &plain[&s.file]] {
            assert_eq!(text.lines().count(), s.text.lines().count(), "{name}");
            let code = text
                .lines()
                .map(|l| l.split("//").next().unwrap_or(""))
                .collect::<Vec<_>>()
                .join("\n");
            // Rattle's attribute of an exported function is no unsafe code.
            let code = match text == made {
                true => code,
                false => code.replace("#[unsafe(no_mangle)]", ""),
            };
            for word in words(&code) {
                assert!(
                    !["ghost", "requires", "ensures", "unsafe"].contains(&word),
                    "{name}: {word}"
                );
            }
            assert!(code.is_ascii(), "{name}");
        }
        // A line without ghost text and without one of the other rules' forms is the source's, byte for byte.
        for (before, after) in s.text.lines().zip(plain[&s.file].lines()) {
            // A trait's method keeps the `;` behind its last clause.
            let ends = after.trim() == ";" && before.ends_with("};");
            assert!(
                before == after || after.trim().is_empty() || before.starts_with(after) || ends,
                "{name}: {before}"
            );
        }
    }
    assert!(all > 250, "{all} functions");
    assert!(
        p.counts.ghost_uses > 0 && p.counts.contracts >= all,
        "{:?}",
        p.counts
    );
}

#[test]
fn unsafe_code_is_forbidden_but_in_the_c_boundary() {
    let sources = read(&root()).unwrap_or_else(|e| panic!("{e}"));
    let p = package(&sources).unwrap_or_else(|e| panic!("{e}"));
    let lib = &p.files["lib.rs"];
    assert!(lib.contains("#![no_std]\n#![deny(unsafe_code)]\n"));
    for krate in &sources.wanted {
        assert!(
            lib.contains(&format!("\n#[forbid(unsafe_code)]\npub mod {krate};\n")),
            "{krate}"
        );
    }
    assert_eq!(lib.matches("mod ").count(), sources.wanted.len() + 1);
}

/// The C symbols are the functions that the header declares.
#[test]
fn the_symbols_are_the_headers() {
    let sources = read(&root()).unwrap_or_else(|e| panic!("{e}"));
    let p = package(&sources).unwrap_or_else(|e| panic!("{e}"));
    let header =
        std::fs::read_to_string(root().join("bindings/c/tamburelvi.h")).expect("the header");
    let declared: BTreeSet<&str> = header
        .lines()
        .filter(|l| {
            l.starts_with("tamburelvi_")
                || l.starts_with("bool tamburelvi_")
                || l.starts_with("uint16_t tamburelvi_")
        })
        .filter_map(|l| l.split_once(' ')?.1.split('(').next())
        .collect();
    let made: BTreeSet<&str> = p.files["c.rs"]
        .lines()
        .filter_map(|l| l.strip_prefix("pub extern \"C\" fn ")?.split('(').next())
        .collect();
    assert_eq!(made, declared);
    assert_eq!(made.len(), p.symbols);
}

/// Sources that are cut off, or have a byte changed, are erased or refused; nothing panics. Of the cut ones most are refused.
#[test]
fn broken_sources_are_refused_or_erased() {
    let sources = read(&root()).unwrap_or_else(|e| panic!("{e}"));
    let crates: Vec<String> = sources.crates.keys().cloned().collect();
    let mut state = 1u64;
    let mut below = |n: usize| {
        state = state
            .wrapping_mul(6_364_136_223_846_793_005)
            .wrapping_add(1_442_695_040_888_963_407);
        (state >> 33) as usize % n
    };
    let (mut cut, mut refused) = (0, 0);
    for s in &sources.files {
        let place = Place {
            file: &s.file,
            krate: &s.krate,
            uses: &sources.crates[&s.krate],
            crates: &crates,
        };
        for _ in 0..60 {
            let at = below(s.text.len());
            if s.text.is_char_boundary(at) {
                let tried = erase(&place, &s.text[..at]);
                cut += 1;
                refused += tried.is_err() as usize;
            }
            if s.text.as_bytes()[at].is_ascii() {
                let mut bytes = s.text.clone().into_bytes();
                bytes[at] = 32 + below(95) as u8;
                let text = String::from_utf8(bytes).expect("text");
                if let Ok(e) = erase(&place, &text) {
                    assert_eq!(e.text.matches('\n').count(), text.matches('\n').count());
                }
            }
        }
    }
    assert!(cut > 1000 && refused * 2 > cut, "{refused} of {cut}");
}
