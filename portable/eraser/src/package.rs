//! All crates below the C library's crate, and it, as one package.

use crate::erase::{erase, without_ghost, Erased, Export, Place};
use crate::scan::{Counts, Refusal};
use std::collections::BTreeMap;
use std::path::Path;

/// The crate with the functions that C calls.
pub const ROOT: &str = "tamburelvi";

pub struct Source {
    pub krate: String,
    /// The file's name without `.rt`.
    pub stem: String,
    /// The path from the repository's root.
    pub file: String,
    pub text: String,
}

/// Each crate with the crates that it uses.
pub type Crates = BTreeMap<String, Vec<String>>;

pub struct Sources {
    /// Name and uses of each crate of crates.txt.
    pub crates: Crates,
    /// The crates to erase, in the order of crates.txt.
    pub wanted: Vec<String>,
    pub files: Vec<Source>,
}

pub struct Package {
    /// Path below src/ and text.
    pub files: BTreeMap<String, String>,
    pub counts: Counts,
    /// File and line, function, text.
    pub casts: Vec<(String, usize, String, String)>,
    pub symbols: usize,
    pub sources: usize,
}

fn refusal(file: &str, line: usize, why: impl Into<String>) -> Refusal {
    Refusal {
        file: file.into(),
        line,
        why: why.into(),
    }
}

/// Names that a crate cannot have as a module of the package.
const RESERVED: &[&str] = &["c", "core", "std", "alloc", "lib", "main", "mod"];

fn listed(text: &str) -> Result<(Crates, Vec<String>), Refusal> {
    let (mut crates, mut order) = (BTreeMap::new(), Vec::new());
    for (n, line) in text.lines().enumerate() {
        let line = line.split('#').next().unwrap_or("").trim();
        if line.is_empty() {
            continue;
        }
        let Some((name, uses)) = line.split_once(':') else {
            return Err(refusal("crates.txt", n + 1, "a line without `:`"));
        };
        let name = name.trim();
        let name = name
            .strip_suffix(" staticlib")
            .unwrap_or(name)
            .trim_end()
            .to_string();
        order.push(name.clone());
        if crates
            .insert(
                name.clone(),
                uses.split_whitespace().map(String::from).collect(),
            )
            .is_some()
        {
            return Err(refusal("crates.txt", n + 1, format!("`{name}` twice")));
        }
    }
    Ok((crates, order))
}

/// Reads crates.txt and the sources of the crates that the root uses.
pub fn read(repository: &Path) -> Result<Sources, Refusal> {
    let text = |file: &str| {
        std::fs::read_to_string(repository.join(file))
            .map_err(|e| refusal(file, 0, format!("cannot be read: {e}")))
    };
    let (crates, order) = listed(&text("crates.txt")?)?;
    let Some(uses) = crates.get(ROOT) else {
        return Err(refusal("crates.txt", 0, format!("no crate `{ROOT}`")));
    };
    for name in uses {
        if !crates.contains_key(name) {
            return Err(refusal(
                "crates.txt",
                0,
                format!("{ROOT} uses `{name}`, which is no crate of the repository"),
            ));
        }
    }
    let wanted: Vec<String> = order
        .iter()
        .filter(|c| *c == ROOT || uses.contains(c))
        .cloned()
        .collect();
    let mut files = Vec::new();
    for krate in &wanted {
        if RESERVED.contains(&krate.as_str()) {
            return Err(refusal(
                "crates.txt",
                0,
                format!("a crate with the name `{krate}`"),
            ));
        }
        let folder = format!("crates/{krate}/src");
        let entries = std::fs::read_dir(repository.join(&folder))
            .map_err(|e| refusal(&folder, 0, format!("cannot be read: {e}")))?;
        let mut names = Vec::new();
        for entry in entries {
            let entry = entry.map_err(|e| refusal(&folder, 0, format!("cannot be read: {e}")))?;
            names.push((
                entry.file_name().to_string_lossy().into_owned(),
                entry.path().is_file(),
            ));
        }
        names.sort();
        for (name, is_file) in names {
            let file = format!("{folder}/{name}");
            match name.strip_suffix(".rt") {
                Some(stem) if is_file => files.push(Source {
                    krate: krate.clone(),
                    stem: stem.into(),
                    text: text(&file)?,
                    file,
                }),
                _ => return Err(refusal(&file, 0, "not a .rt file")),
            }
        }
    }
    Ok(Sources {
        crates,
        wanted,
        files,
    })
}

/// The sources without ghost text, by their paths from the repository's root.
pub fn ghostless(sources: &Sources) -> Result<BTreeMap<String, String>, Refusal> {
    sources
        .files
        .iter()
        .map(|s| Ok((s.file.clone(), without_ghost(&s.file, &s.text)?)))
        .collect()
}

/// What the C boundary may name: structs with the layout of C, and arrays, by their paths from the package's root.
struct Types {
    layouts: Vec<String>,
    arrays: Vec<String>,
}

const NUMBERS: &[&str] = &["bool", "u8", "u16", "u32", "u64", "usize"];

/// The C symbol of an exported function. A slice arrives as a pointer and a length, all else as Rust has it.
fn symbol(
    file: &str,
    module: &str,
    e: &Export,
    from: &Erased,
    types: &Types,
) -> Result<String, Refusal> {
    let named =
        |t: &str, among: &[String]| from.imports.get(t).filter(|p| among.contains(p)).cloned();
    let wrong = |what: &str, t: &str| {
        refusal(
            file,
            e.line,
            format!("{}: {what} `{t}` at the C boundary", e.name),
        )
    };
    let (mut heads, mut arguments) = (Vec::new(), Vec::new());
    for (name, t) in &e.parameters {
        let words: Vec<&str> = t.split(' ').collect();
        match words[..] {
            ["&", "[", n @ ("u8" | "u16"), "]"] => {
                heads.push(format!("{name}: *const {n}, {name}_length: usize"));
                arguments.push(format!(
                    "unsafe {{ core::slice::from_raw_parts({name}, {name}_length) }}"
                ));
            }
            ["&", "mut", "[", n @ ("u8" | "u16"), "]"] => {
                heads.push(format!("{name}: *mut {n}, {name}_length: usize"));
                arguments.push(format!(
                    "unsafe {{ core::slice::from_raw_parts_mut({name}, {name}_length) }}"
                ));
            }
            ["&", n] => {
                heads.push(format!(
                    "{name}: &{}",
                    named(n, &types.arrays).ok_or_else(|| wrong("parameter", t))?
                ));
                arguments.push(name.clone());
            }
            ["&", "mut", n] => {
                heads.push(format!(
                    "{name}: &mut {}",
                    named(n, &types.arrays).ok_or_else(|| wrong("parameter", t))?
                ));
                arguments.push(name.clone());
            }
            [n] if NUMBERS.contains(&n) => {
                heads.push(format!("{name}: {n}"));
                arguments.push(name.clone());
            }
            [n] => {
                heads.push(format!(
                    "{name}: {}",
                    named(n, &types.layouts).ok_or_else(|| wrong("parameter", t))?
                ));
                arguments.push(name.clone());
            }
            _ => return Err(wrong("parameter", t)),
        }
    }
    let result = match e.result.as_str() {
        n if NUMBERS.contains(&n) => n.to_string(),
        n => named(n, &types.layouts).ok_or_else(|| wrong("result", n))?,
    };
    Ok(format!(
        "\n#[no_mangle]\npub extern \"C\" fn {}({}) -> {result} {{\n    {module}::{}({})\n}}\n",
        e.name,
        heads.join(", "),
        e.name,
        arguments.join(", ")
    ))
}

const LIB: &str = "// Made by portable/eraser from the proved source; not to be edited.
//! A proved ANSI E1.31 (sACN) receiver, its ghost text taken out. See README.md.
#![no_std]
#![deny(unsafe_code)]
// A lent part that only a contract speaks of is not used by the code; the layout is Rattle's.
#![allow(unused_variables, clippy::all)]
";

const C: &str = "// Made by portable/eraser from the proved source; not to be edited.
// The C symbols, and the only unsafe code: a pointer and a length become a slice. The caller owes what include/tamburelvi.h says of pointers and lengths.
#![allow(unsafe_code)]

/// A caller that breaks the header's rules can end here. With the feature `hook` the program's own function is called, and may not return.
#[cfg(feature = \"panic\")]
#[panic_handler]
fn stop(_: &core::panic::PanicInfo) -> ! {
    #[cfg(feature = \"hook\")]
    {
        extern \"C\" {
            fn tamburelvi_panicked() -> !;
        }
        unsafe { tamburelvi_panicked() }
    }
    #[cfg(not(feature = \"hook\"))]
    loop {}
}
";

/// The package's sources.
pub fn package(sources: &Sources) -> Result<Package, Refusal> {
    let names: Vec<String> = sources.crates.keys().cloned().collect();
    let (mut files, mut counts, mut casts, mut erased) =
        (BTreeMap::new(), Counts::default(), Vec::new(), Vec::new());
    let mut types = Types {
        layouts: Vec::new(),
        arrays: Vec::new(),
    };
    for krate in &sources.wanted {
        let (mut found, mut named) = (Vec::new(), Vec::new());
        for source in sources.files.iter().filter(|s| s.krate == *krate) {
            let place = Place {
                file: &source.file,
                krate,
                uses: &sources.crates[krate],
                crates: &names,
            };
            let one = erase(&place, &source.text)?;
            let root = source.stem == "lib";
            let module = if root {
                format!("crate::{krate}")
            } else {
                format!("crate::{krate}::{}", source.stem)
            };
            if !root {
                found.push(source.stem.clone());
                if !one.mods.is_empty() {
                    return Err(refusal(&source.file, 0, "`mod` outside lib.rt"));
                }
            }
            named.extend(one.mods.iter().cloned());
            types
                .layouts
                .extend(one.layouts.iter().map(|n| format!("{module}::{n}")));
            types
                .arrays
                .extend(one.arrays.iter().map(|n| format!("{module}::{n}")));
            casts.extend(one.casts.iter().map(|c| {
                (
                    source.file.clone(),
                    c.line,
                    c.function.clone(),
                    c.text.clone(),
                )
            }));
            let c = &one.counts;
            counts.tactics += c.tactics;
            counts.ghost_uses += c.ghost_uses;
            counts.ghost_members += c.ghost_members;
            counts.contracts += c.contracts;
            counts.derives += c.derives;
            counts.paths += c.paths;
            counts.wrapping += c.wrapping;
            counts.exports += c.exports;
            counts.longest += c.longest;
            if krate != ROOT && !one.exports.is_empty() {
                return Err(refusal(
                    &source.file,
                    one.exports[0].line,
                    format!("an exported function outside the crate {ROOT}"),
                ));
            }
            files.insert(
                format!("{krate}/{}.rs", if root { "mod" } else { &source.stem }),
                one.text.clone(),
            );
            erased.push((source.file.clone(), module, one));
        }
        named.sort();
        if found != named {
            return Err(refusal(
                &format!("crates/{krate}/src"),
                0,
                format!("files {found:?} beside lib.rt, modules {named:?}"),
            ));
        }
        if !files.contains_key(&format!("{krate}/mod.rs")) {
            return Err(refusal(&format!("crates/{krate}/src"), 0, "no lib.rt"));
        }
    }
    let mut symbols = Vec::new();
    for (file, module, one) in &erased {
        for e in &one.exports {
            symbols.push(symbol(file, module, e, one, &types)?);
        }
    }
    let mods: String = sources
        .wanted
        .iter()
        .map(|c| format!("#[forbid(unsafe_code)]\npub mod {c};\n"))
        .collect();
    let sources = files.len();
    files.insert(
        "lib.rs".into(),
        format!("{LIB}{mods}#[cfg(feature = \"c\")]\nmod c;\n"),
    );
    files.insert("c.rs".into(), format!("{C}{}", symbols.concat()));
    Ok(Package {
        files,
        counts,
        casts,
        symbols: symbols.len(),
        sources,
    })
}
