//! Each refusal, with its line.

mod own;

use eraser::erase::without_ghost;
use eraser::package::{package, read, Source, Sources};
use eraser::scan::{Refusal, KEYWORDS, REFUSED_WORDS};

fn refusal(text: &str) -> Refusal {
    match own::erased(text) {
        Ok(e) => panic!("not refused: {}", e.text),
        Err(r) => r,
    }
}

/// The text is refused at this line, for this reason.
fn refused(text: &str, line: usize, why: &str) {
    let r = refusal(text);
    assert!(r.why.contains(why), "{text:?}: {r}");
    assert_eq!((r.file.as_str(), r.line), ("own.rt", line), "{text:?}: {r}");
    assert_eq!(r.to_string(), format!("own.rt:{line}: {}", r.why));
}

#[test]
fn ghost_text_of_other_forms() {
    refused("fn f() {\n    ghost use a.b;\n}\n", 2, "within an item");
    refused("\nghost use a.b", 2, "does not end");
    refused("ghost use a.{b}.c;\n", 1, "form that is not known");
    refused("ghost use a{b};\n", 1, "form that is not known");
    refused("ghost use a.{b, {c}};\n", 1, "form that is not known");
    refused("ghost use a -- b\n;\n", 1, "form that is not known");
    refused("ghost fn f() {}\n", 1, "the word `ghost`");
    refused("ghost number = { a };\n", 1, "the word `ghost`");
    for member in [
        "number { a };",
        "number = a;",
        "= { a };",
        "number =  { a };",
    ] {
        refused(
            &format!("impl A {{\n    ghost {member}\n}}\n"),
            2,
            "the word `ghost`",
        );
    }
    refused(
        "impl A {\n    ghost number = { a }\n}\n",
        2,
        "does not end with its braces",
    );
    refused(
        "impl A {\n    ghost number = { \"a\" };\n}\n",
        2,
        "a quote or a comment in ghost text",
    );
    refused(
        "fn f() {\n    let a = 1;\n    ensures { x }\n}\n",
        3,
        "belongs to no function",
    );
    refused("requires { x }\n", 1, "belongs to no function");
    refused(
        "fn f(a: [u8; requires { x }])\n{\n}\n",
        1,
        "belongs to no function",
    );
    refused("fn f()\n    ensures\n", 2, "without braces");
    refused(
        "fn f()\n    ensures A { x }\n{\n}\n",
        2,
        "form that is not known",
    );
    refused(
        "fn f()\n    ensures x y { x }\n{\n}\n",
        2,
        "form that is not known",
    );
    refused(
        "fn f()\n    ensures{ x }\n{\n}\n",
        2,
        "form that is not known",
    );
    refused("fn f()\n    ensures { { x }\n", 2, "do not close");
    for quote in ["\"", "'", "\\", "`", "//", "/*", "--"] {
        refused(
            &format!("fn f()\n    ensures {{ x\n y {quote} }}\n{{\n}}\n"),
            3,
            "a quote or a comment in ghost text",
        );
    }
}

#[test]
fn the_same_where_ghost_text_alone_goes() {
    let r = without_ghost("own.rt", "fn f()\n    ensures { { x }\n").unwrap_err();
    assert_eq!((r.file.as_str(), r.line), ("own.rt", 2));
}

#[test]
fn words_that_are_not_used() {
    for word in REFUSED_WORDS {
        refused(
            &format!("fn f() {{\n    {word} a\n}}\n"),
            2,
            &format!("the word `{word}`"),
        );
        assert!(!KEYWORDS.contains(word));
    }
}

/// Every keyword of Rust, of any edition, is known here as used or as refused.
#[test]
fn all_keywords_are_known() {
    let all = "as break const continue crate else enum extern false fn for if impl in let loop match mod move mut pub ref return self Self static struct \
        super trait true type unsafe use where while async await dyn abstract become box do final gen macro override priv try typeof unsized virtual yield";
    for word in all.split_whitespace() {
        assert!(
            KEYWORDS.contains(&word) != REFUSED_WORDS.contains(&word),
            "{word}"
        );
    }
}

#[test]
fn text_that_is_not_known() {
    refused("fn f() {\n    a @ b\n}\n", 2, "unknown text '@'");
    refused("fn f() {\n    λ\n}\n", 2, "unknown text 'λ'");
    refused("\tfn f() {}\n", 1, "unknown text '\\t'");
    refused("fn f() {}\r\n", 1, "unknown text '\\r'");
    refused("// a\r\nfn f() {}\n", 1, "a carriage return");
    refused("fn f() {\n    a ^ b\n}\n", 2, "unknown text '^'");
    refused("fn f() {\n    \"text\"\n}\n", 2, "unknown text '\"'");
    refused(
        "fn f() {\n    b\"text\"\n}\n",
        2,
        "a quote or `#` behind it",
    );
    refused("fn f() {\n    r#fn\n}\n", 2, "a quote or `#` behind it");
    refused("fn f() {\n    'a'\n}\n", 2, "a quote");
    refused("fn f() {\n    '\\n'\n}\n", 2, "a quote");
    refused("fn f() {\n    /* a */\n}\n", 2, "a comment in");
    refused("/// doc\nfn f() {}\n", 1, "a doc comment");
    refused("//! doc\nfn f() {}\n", 1, "a doc comment");
    refused("fn f() {\n", 2, "does not close");
    refused("fn f() {}\n}\n", 2, "was not opened");
}

#[test]
fn numbers_that_are_not_known() {
    for number in [
        "1.5", "1.max(2)", "1e5", "0b1", "0o7", "0x", "1u128", "1isize", "1f64", "0xFFg",
    ] {
        refused(&format!("fn f() {{\n    {number};\n}}\n"), 2, "number");
    }
}

#[test]
fn numbers_that_a_usize_of_32_bits_cannot_hold() {
    refused("\nconst A: usize = 4294967296;\n", 2, "32 bits");
    refused("\nconst A: usize = 0x1_0000_0000;\n", 2, "32 bits");
    refused(
        "\nconst A: usize = 9_223_372_036_854_775_807;\n",
        2,
        "32 bits",
    );
    refused(
        "\nconst A: usize = 9223372036854775807 / 2;\n",
        2,
        "32 bits",
    );
    refused(
        "\nconst A: usize = 999999999999999999999999999999999999999999;\n",
        2,
        "32 bits",
    );
    refused("fn f() {\n    let a = 4294967296usize;\n}\n", 2, "32 bits");
}

#[test]
fn attributes_and_exports_of_other_forms() {
    refused("#[inline]\nfn f() {}\n", 1, "attribute #[inline]");
    refused("#![no_std]\nfn f() {}\n", 1, "attribute");
    refused("#[repr(u8)]\nenum A {}\n", 1, "attribute #[repr(u8)]");
    refused("#[repr(C)]\nenum A {}\n", 1, "something else than a struct");
    refused(
        "#[repr(C)]\n#[derive(Clone, Copy)]\nenum A {}\n",
        1,
        "something else than a struct",
    );
    refused(
        "#[derive(Clone, Copy)]\n#[repr(C)]\nstruct A {}\n",
        1,
        "something else than a struct or an enum",
    );
    refused(
        "#[derive(Clone)]\nstruct A {}\n",
        1,
        "attribute #[derive(Clone)]",
    );
    for derived in [
        "PartialEq",
        "Copy, Clone",
        "Clone, Copy,",
        "Clone, Copy, Hash",
    ] {
        refused(
            &format!("#[derive({derived})]\nstruct A {{}}\n"),
            1,
            "attribute #[derive(",
        );
    }
    refused(
        "#[no_mangle]\npub extern \"C\" fn f() {}\n",
        1,
        "attribute #[no_mangle]",
    );
    refused("#[unsafe(naked)]\npub fn f() {}\n", 1, "the word `unsafe`");
    refused("#[tactic(auto)] fn f() {}\n", 1, "does not end its line");
    refused(
        "#[tactic(auto, \"a\")]\nfn f() {}\n",
        1,
        "form that is not known",
    );
    refused("fn f() {\n    #![tactic(auto)]\n}\n", 2, "within an item");
    refused(
        "#[unsafe(no_mangle)]\npub fn f() -> u8 {}\n",
        1,
        "something else than `pub extern",
    );
    refused(
        "#[unsafe(no_mangle)]\nextern \"C\" fn f() -> u8 {}\n",
        1,
        "something else than `pub extern",
    );
    refused(
        "#[unsafe(no_mangle)]\npub extern \"C\" fn f<'a>() -> u8 {}\n",
        1,
        "something else than `pub extern",
    );
    refused(
        "#[unsafe(no_mangle)]\npub extern \"C\" fn f(a: u8) {}\n",
        1,
        "without a result",
    );
    refused(
        "#[unsafe(no_mangle)]\npub extern \"C\" fn f() -> [u8; 2] {}\n",
        1,
        "without a result",
    );
    refused(
        "#[unsafe(no_mangle)]\npub extern \"C\" fn f(\n    mut a: u8,\n) -> u8 {}\n",
        3,
        "not `NAME: TYPE`",
    );
    refused("pub extern \"C\" fn f() {}\n", 1, "exports nothing");
    refused("extern crate a;\n", 1, "exports nothing");
}

#[test]
fn items_of_other_forms() {
    refused("mod a {\n}\n", 1, "`mod` with a body");
    refused("mod rules;\n", 1, "the name of a crate");
    refused("pub(crate) fn f() {}\n", 1, "`pub` with a scope");
    refused("fn f(a: fn(u8)) {}\n", 1, "`fn` without a name");
    refused("fn f() {\n    panic!(a);\n}\n", 2, "a macro, `panic!`");
    refused("fn f() {\n    a![1];\n}\n", 2, "a macro, `a!`");
    for names in [
        "", "A, b::C", "A as B", "A, {B}", "self", "A B", "A,, B", "*",
    ] {
        refused(
            &format!("use rules::{{{names}}};\n"),
            1,
            "`use` of another form",
        );
    }
    refused("use {rules::A};\n", 1, "`use` of another form");
    refused("use rules::{A}::B;\n", 1, "`use` of another form");
    refused("fn f() {\n    rules::{A}\n}\n", 2, "`::` of a form");
    refused("use rules::*;\n", 1, "`use` of another form");
    refused("use rules::A as B;\n", 1, "`use` of another form");
    refused("use rules;\n", 1, "`use` of another form");
}

#[test]
fn paths_of_other_forms() {
    refused(
        "fn f() {\n    std::mem::swap(a, b)\n}\n",
        2,
        "`std::mem::swap`",
    );
    refused(
        "fn f() {\n    std::num::wrapping_mul_u8(a, b)\n}\n",
        2,
        "`std::num::wrapping_mul_u8`",
    );
    refused(
        "fn f() {\n    std::num::wrapping_add_u8;\n}\n",
        2,
        "`std::num::wrapping_add_u8`",
    );
    refused(
        "fn f() {\n    std::num::wrapping_add_usize(a, b)\n}\n",
        2,
        "32 bits",
    );
    refused(
        "fn f() {\n    other::g()\n}\n",
        2,
        "not among the crates that own uses",
    );
    refused(
        "fn f() {\n    unknown::g()\n}\n",
        2,
        "begins with `unknown`",
    );
    refused("fn f() {\n    u8::g()\n}\n", 2, "begins with `u8`");
    for path in ["usize::MAX", "usize::try_from(a)"] {
        refused(&format!("fn f() {{\n    {path}\n}}\n"), 2, "32 bits");
    }
    refused(
        "use std::collections::HashMap;\n",
        1,
        "`std::collections::HashMap`",
    );
    refused("fn f() {\n    self::g()\n}\n", 2, "begins with `self`");
    refused("fn f() {\n    ::g()\n}\n", 2, "`::` of a form");
    refused("fn f() {\n    A::<u8>()\n}\n", 2, "`::` of a form");
}

fn source(krate: &str, stem: &str, text: &str) -> Source {
    Source {
        krate: krate.into(),
        stem: stem.into(),
        file: format!("crates/{krate}/src/{stem}.rt"),
        text: text.into(),
    }
}

/// The two crates `rules` and the C library's, refused at this place for this reason.
fn refused_package(files: Vec<Source>, place: &str, why: &str) {
    let crates = [("rules", vec![]), ("tamburelvi", vec!["rules".to_string()])];
    let sources = Sources {
        crates: crates
            .into_iter()
            .map(|(n, u)| (n.to_string(), u))
            .collect(),
        wanted: vec!["rules".into(), "tamburelvi".into()],
        files,
    };
    match package(&sources) {
        Ok(_) => panic!("not refused: {why}"),
        Err(r) => assert!(
            r.to_string().starts_with(place) && r.why.contains(why),
            "{r}"
        ),
    }
}

#[test]
fn modules_and_files_that_do_not_fit() {
    refused_package(
        vec![
            source("rules", "lib", ""),
            source("tamburelvi", "lib", "mod a;\n"),
        ],
        "crates/tamburelvi/src: ",
        "modules [\"a\"]",
    );
    refused_package(
        vec![source("rules", "a", ""), source("rules", "lib", "")],
        "crates/rules/src: ",
        "files [\"a\"]",
    );
    refused_package(
        vec![
            source("rules", "a", "mod b;\n"),
            source("rules", "lib", "mod a;\n"),
        ],
        "crates/rules/src/a.rt: ",
        "`mod` outside lib.rt",
    );
    refused_package(
        vec![source("tamburelvi", "lib", "")],
        "crates/rules/src: ",
        "no lib.rt",
    );
}

#[test]
fn the_c_boundary() {
    let f = |parameter: &str, result: &str| {
        format!("use rules::Pairs;\nuse rules::Reply;\nuse rules::Plain;\n#[unsafe(no_mangle)]\npub extern \"C\" fn f({parameter}) -> {result}\n{{\n}}\n")
    };
    let below =
        "pub type Pairs = [u64; 4];\n#[repr(C)]\npub struct Reply {\n}\npub struct Plain {\n}\n";
    let with = |text: String| {
        vec![
            source("rules", "lib", below),
            source("tamburelvi", "lib", &text),
        ]
    };
    let at = "crates/tamburelvi/src/lib.rt:4: ";
    for parameter in [
        "a: &[u64]",
        "a: &mut [[u8; 2]]",
        "a: i64",
        "a: Plain",
        "a: Pairs",
        "a: &Reply",
        "a: &mut Plain",
        "a: Unknown",
        "a: &u8",
        "a: [u8; 2]",
    ] {
        refused_package(with(f(parameter, "Reply")), at, "parameter `");
    }
    for result in ["Plain", "Pairs", "i64", "Unknown"] {
        refused_package(with(f("a: u8", result)), at, "result `");
    }
    refused_package(
        vec![
            source(
                "rules",
                "lib",
                "\n#[unsafe(no_mangle)]\npub extern \"C\" fn f() -> u8\n{\n}\n",
            ),
            source("tamburelvi", "lib", ""),
        ],
        "crates/rules/src/lib.rt:2: ",
        "outside the crate tamburelvi",
    );
    // And what is known is not refused.
    let sources = Sources {
        crates: [
            ("rules".to_string(), vec![]),
            ("tamburelvi".to_string(), vec!["rules".to_string()]),
        ]
        .into_iter()
        .collect(),
        wanted: vec!["rules".into(), "tamburelvi".into()],
        files: with(f(
            "a: &Pairs, b: &mut Pairs, c: &[u8], d: &mut [u16], e: Reply, g: usize, h: u32, i: Reply, k: &mut [u8]",
            "Reply",
        )),
    };
    let p = package(&sources).unwrap_or_else(|e| panic!("{e}"));
    assert!(p.files["c.rs"].contains(
        "pub extern \"C\" fn f(a: &crate::rules::Pairs, b: &mut crate::rules::Pairs, c: *const u8, c_length: usize, d: *mut u16, d_length: usize, e: crate::rules::Reply, g: usize, h: u32, i: crate::rules::Reply, k: *mut u8, k_length: usize) -> crate::rules::Reply {\n    \
         crate::tamburelvi::f(a, b, unsafe { core::slice::from_raw_parts(c, c_length) }, unsafe { core::slice::from_raw_parts_mut(d, d_length) }, e, g, h, i, unsafe { core::slice::from_raw_parts_mut(k, k_length) })\n}\n"
    ), "{}", p.files["c.rs"]);
    assert_eq!(p.symbols, 1);
}

/// What is read of a repository with these files. It stands among the temporary files, since `rt ci` refuses a source that no crate of
/// this repository has.
fn read_repository(name: &str, files: &[(&str, &str)]) -> Result<Sources, Refusal> {
    let folder = std::env::temp_dir().join(format!("eraser-{}-{name}", std::process::id()));
    for (path, text) in files {
        let path = folder.join(path);
        std::fs::create_dir_all(path.parent().unwrap()).unwrap();
        std::fs::write(path, text).unwrap();
    }
    let found = read(&folder);
    std::fs::remove_dir_all(&folder).unwrap();
    found
}

fn refused_repository(name: &str, files: &[(&str, &str)], place: &str, why: &str) {
    match read_repository(name, files) {
        Ok(_) => panic!("not refused: {name}"),
        Err(r) => assert!(
            r.to_string().starts_with(place) && r.why.contains(why),
            "{r}"
        ),
    }
}

#[test]
fn repositories_of_other_forms() {
    let lib = ("crates/tamburelvi/src/lib.rt", "");
    refused_repository("none", &[lib], "crates.txt: ", "cannot be read");
    refused_repository(
        "colon",
        &[("crates.txt", "tamburelvi:\nrules\n"), lib],
        "crates.txt:2: ",
        "without `:`",
    );
    refused_repository(
        "twice",
        &[("crates.txt", "tamburelvi:\ntamburelvi:\n"), lib],
        "crates.txt:2: ",
        "twice",
    );
    refused_repository(
        "root",
        &[("crates.txt", "rules:\n"), lib],
        "crates.txt: ",
        "no crate `tamburelvi`",
    );
    refused_repository(
        "kit",
        &[("crates.txt", "tamburelvi: libc\n"), lib],
        "crates.txt: ",
        "`libc`, which is no crate",
    );
    refused_repository(
        "name",
        &[("crates.txt", "core:\ntamburelvi: core\n"), lib],
        "crates.txt: ",
        "the name `core`",
    );
    refused_repository(
        "folder",
        &[("crates.txt", "rules:\ntamburelvi: rules\n"), lib],
        "crates/rules/src: ",
        "cannot be read",
    );
    refused_repository(
        "file",
        &[
            ("crates.txt", "tamburelvi:\n"),
            lib,
            ("crates/tamburelvi/src/a.rs", ""),
        ],
        "crates/tamburelvi/src/a.rs: ",
        "not a .rt file",
    );
    refused_repository(
        "inner",
        &[
            ("crates.txt", "tamburelvi:\n"),
            lib,
            ("crates/tamburelvi/src/a/b.rt", ""),
        ],
        "crates/tamburelvi/src/a: ",
        "not a .rt file",
    );
    let good = read_repository("good", &[("crates.txt", "# said\ntamburelvi:\n"), lib]);
    assert!(good.is_ok());
    let archive = read_repository("archive", &[("crates.txt", "tamburelvi staticlib:\n"), lib]);
    assert_eq!(archive.unwrap().wanted, ["tamburelvi"]);
}
