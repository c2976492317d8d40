//! Each rule, by what it makes of a source.

mod own;

use eraser::erase::{without_ghost, Erased};

fn erased(text: &str) -> Erased {
    own::erased(text).unwrap_or_else(|e| panic!("{e}"))
}

fn body(text: &str) -> String {
    let all = erased(text).text;
    all.strip_prefix("/* Made from own.rt; not to be edited. */ ")
        .expect("the header")
        .to_string()
}

#[test]
fn the_first_line_names_the_source_and_lines_stay() {
    let e = erased("// first\n\nconst A: u8 = 1;\n");
    assert_eq!(
        e.text,
        "/* Made from own.rt; not to be edited. */ // first\n\nconst A: u8 = 1;\n"
    );
}

#[test]
fn ghost_use_goes() {
    let text =
        "ghost use a.b.{_≡_, x};\nghost use Rattle·rules.specs.View as view;\nconst A: u8 = 1;\n";
    assert_eq!(body(text), "\n\nconst A: u8 = 1;\n");
    assert_eq!(
        without_ghost("own.rt", text).unwrap(),
        "\n\nconst A: u8 = 1;\n"
    );
    assert_eq!(erased(text).counts.ghost_uses, 2);
}

#[test]
fn the_line_for_the_provers_tactics_goes() {
    let text = "// first\n\n#![tactic(auto)]\n\nconst A: u8 = 1;\n";
    assert_eq!(body(text), "// first\n\n\n\nconst A: u8 = 1;\n");
    assert_eq!(
        without_ghost("own.rt", text).unwrap(),
        "// first\n\n\n\nconst A: u8 = 1;\n"
    );
    assert_eq!(erased(text).counts.tactics, 1);
}

#[test]
fn lemmas_named_to_the_prover_go() {
    let text = "impl A {\n    // said\n    #[tactic(auto, using(crate::specs::Library::put_in_of), unfolding(a))]\n    fn f() {\n    }\n}\n";
    let plain = "impl A {\n    // said\n\n    fn f() {\n    }\n}\n";
    assert_eq!(body(text), plain);
    assert_eq!(erased(text).counts.tactics, 1);
}

#[test]
fn ghost_members_of_a_trait_and_an_impl_go() {
    let text = "pub trait A: Copy {\n    ghost number: { Self };\n    fn f(self) -> u8\n        ensures { x };\n}\nimpl A for B {\n    ghost number = { λ s. record { a = s } };\n    fn f(self) -> u8 {\n        self.0\n    }\n}\n";
    let plain = "pub trait A: Copy {\n\n    fn f(self) -> u8\n        ;\n}\nimpl A for B {\n\n    fn f(self) -> u8 {\n        self.0\n    }\n}\n";
    assert_eq!(body(text), plain);
    assert_eq!(erased(text).counts.ghost_members, 2);
}

#[test]
fn library_paths_are_cores() {
    let e = erased("use std::marker::PhantomData;\nuse std::cmp::Ordering;\nfn f(a: bool) -> u64 {\n    u64::from(a) + usize::from(a) as u64 + u64::MAX\n}\n");
    let plain = "use core::marker::PhantomData;\nuse core::cmp::Ordering;\nfn f(a: bool) -> u64 {\n    u64::from(a) + usize::from(a) as u64 + u64::MAX\n}\n";
    assert!(e.text.ends_with(plain), "{}", e.text);
}

#[test]
fn contracts_go_with_their_names_and_line_breaks() {
    let text = "fn f(a: u8) -> u8\n    requires { ⌜ a { b } ⌝ }\n    requires room { ⌜ x ⌝ }\n    ensures told { λ r.\n        ⌜ r ⌝ }\n{\n    a\n}\n";
    let plain = "fn f(a: u8) -> u8\n\n\n\n\n{\n    a\n}\n";
    assert_eq!(body(text), plain);
    assert_eq!(without_ghost("own.rt", text).unwrap(), plain);
    assert_eq!(erased(text).counts.contracts, 3);
}

#[test]
fn contracts_of_a_method_and_behind_an_array_go() {
    let text = "impl A {\n    fn f(a: [u8; 4])\n        ensures { x }\n    {\n    }\n}\n";
    assert_eq!(
        body(text),
        "impl A {\n    fn f(a: [u8; 4])\n\n    {\n    }\n}\n"
    );
}

#[test]
fn structs_and_enums_that_may_be_copied_stay_so() {
    let text = "#[derive(Clone, Copy)]\npub struct A(pub u8);\n#[derive(Clone, Copy)]\nenum B {\n    C,\n}\n#[repr(C)]\n#[derive(Clone, Copy)]\npub struct D {\n    pub a: u8,\n}\nstruct E(u8);\n";
    let e = erased(text);
    assert!(e.text.ends_with(text), "{}", e.text);
    assert_eq!(e.counts.derives, 3);
    assert_eq!(e.layouts, ["D"]);
    let text = "#[derive(Clone, Copy, PartialEq, Eq, PartialOrd, Ord)]\npub struct F(pub u8);\n";
    assert!(erased(text).text.ends_with(text));
}

#[test]
fn paths_begin_with_the_crates_module() {
    let e = erased("mod part;\nuse rules::Cid;\nuse crate::Row;\nuse part::g;\nfn f() -> Cid {\n    rules::word(A::B, part::g());\n    crate::part::h()\n}\n");
    let plain = "mod part;\nuse crate::rules::Cid;\nuse crate::own::Row;\nuse part::g;\nfn f() -> Cid {\n    crate::rules::word(A::B, part::g());\n    crate::own::part::h()\n}\n";
    assert!(e.text.ends_with(plain), "{}", e.text);
    assert_eq!(e.counts.paths, 4);
    assert_eq!(e.imports["Cid"], "crate::rules::Cid");
    assert_eq!(e.imports["Row"], "crate::own::Row");
    assert_eq!(e.imports["g"], "crate::own::part::g");
    assert_eq!(e.mods, ["part"]);
}

#[test]
fn names_in_braces_are_imported_each() {
    let e = erased(
        "use rules::{Cid, word};\npub use crate::part::{\n    g, h,\n};\nuse crate::{Row};\n",
    );
    let plain = "use crate::rules::{Cid, word};\npub use crate::own::part::{\n    g, h,\n};\nuse crate::own::{Row};\n";
    assert!(e.text.ends_with(plain), "{}", e.text);
    assert_eq!(e.counts.paths, 3);
    assert_eq!(e.imports["Cid"], "crate::rules::Cid");
    assert_eq!(e.imports["word"], "crate::rules::word");
    assert_eq!(e.imports["h"], "crate::own::part::h");
    assert_eq!(e.imports["Row"], "crate::own::Row");
}

#[test]
fn wrapping_arithmetic_is_the_types_own() {
    let e = erased("fn f(a: u8, b: u64) {\n    std::num::wrapping_sub_u8(a, 1);\n    std::num::wrapping_add_u64(b, 1)\n}\n");
    assert!(
        e.text
            .ends_with("{\n    u8::wrapping_sub(a, 1);\n    u64::wrapping_add(b, 1)\n}\n"),
        "{}",
        e.text
    );
    assert_eq!(e.counts.wrapping, 2);
}

#[test]
fn exports_lose_their_attribute_and_are_listed() {
    let e = erased("// first\n#[unsafe(no_mangle)]\npub extern \"C\" fn f(\n    a: &mut Rows,\n    b: &[u8],\n    c: u8,\n) -> Reply\n    ensures { x }\n{\n    g()\n}\n");
    let plain = "// first\n\npub fn f(\n    a: &mut Rows,\n    b: &[u8],\n    c: u8,\n) -> Reply\n\n{\n    g()\n}\n";
    assert!(e.text.ends_with(plain), "{}", e.text);
    assert_eq!(e.counts.exports, 1);
    let x = &e.exports[0];
    assert_eq!(
        (x.name.as_str(), x.result.as_str(), x.line),
        ("f", "Reply", 2)
    );
    let p = |a: &str, b: &str| (a.to_string(), b.to_string());
    assert_eq!(
        x.parameters,
        [p("a", "& mut Rows"), p("b", "& [ u8 ]"), p("c", "u8")]
    );
}

#[test]
fn casts_to_usize_are_listed_with_function_and_line() {
    let e = erased(
        "fn f(a: u64) -> u64 {\n    a as u64\n}\nfn g(a: u64) -> usize {\n    1 + a as usize\n}\n",
    );
    assert_eq!(e.casts.len(), 1);
    let c = &e.casts[0];
    assert_eq!(
        (c.function.as_str(), c.line, c.text.as_str()),
        ("g", 5, "1 + a as usize")
    );
}

#[test]
fn the_longest_length_is_the_targets() {
    let e = erased("const LONGEST: usize = 9223372036854775807;\nconst A: usize = 4294967295;\nconst B: u64 = 9223372036854775807;\n");
    let plain = "const LONGEST: usize = isize::MAX as usize;\nconst A: usize = 4294967295;\nconst B: u64 = 9223372036854775807;\n";
    assert!(e.text.ends_with(plain), "{}", e.text);
    assert_eq!(e.counts.longest, 1);
    assert_eq!(isize::MAX as usize, 9_223_372_036_854_775_807);
}

#[test]
fn the_rest_is_left_as_it_is() {
    let text = "fn g(a: &[u8]) -> Option<u8> {\n    for b in a {\n        if matches!(b, 1 | 2) {\n            return Some(*b);\n        }\n    }\n    let n = h(a)?;\n    a.iter().filter(|b| **b == n).copied().next()\n}\nfn f<'a>(a: &'a [u8], n: u16) -> &'a [u8] {\n    match n {\n        0 => &a[..0],\n        1..=0xFF_u16 => a, // said\n        _ => {\n            if !(n == 2) {\n                return a;\n            }\n            a\n        }\n    }\n}\n";
    assert_eq!(body(text), text);
}
