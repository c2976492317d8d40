//! One file: tokens to plain Rust, line for line.

use crate::scan::{scan, Counts, Kind, Refusal, Token, KEYWORDS};
use std::collections::BTreeMap;

/// What a file is erased with: where it stands, and the crates that its crate may name.
pub struct Place<'a> {
    /// The path that refusals and headers name.
    pub file: &'a str,
    pub krate: &'a str,
    /// The crates that its crate uses.
    pub uses: &'a [String],
    /// All crates of the repository.
    pub crates: &'a [String],
}

/// A function of the C boundary: its parameters as name and type.
#[derive(Debug, PartialEq)]
pub struct Export {
    pub name: String,
    pub parameters: Vec<(String, String)>,
    pub result: String,
    pub line: usize,
}

/// An `as usize`: the function that it stands in, and its line.
#[derive(Debug, PartialEq)]
pub struct Cast {
    pub function: String,
    pub line: usize,
    pub text: String,
}

#[derive(Debug)]
pub struct Erased {
    pub text: String,
    pub counts: Counts,
    pub mods: Vec<String>,
    pub exports: Vec<Export>,
    pub casts: Vec<Cast>,
    /// Names that `use` brings in, with their paths from the package's root.
    pub imports: BTreeMap<String, String>,
    /// Structs with the layout of C.
    pub layouts: Vec<String>,
    /// Types that are another name of an array.
    pub arrays: Vec<String>,
}

/// The length that no slice exceeds, where usize has 64 bits.
const LONGEST: &str = "9223372036854775807";

/// What may be derived, on a type that is copied: it means the same in both languages.
const DERIVE: &str = "#[derive(Clone,Copy";
const DERIVED: &[&str] = &["Debug", "Eq", "Ord", "PartialEq", "PartialOrd"];

/// Numbers that have the same bits on every target, and what of theirs is called or read by name.
const NUMBERS: &[&str] = &["u8", "u16", "u32", "u64", "i8", "i16", "i32", "i64"];
const OF_NUMBERS: &[&str] = &["MAX", "from", "from_be_bytes", "try_from"];

/// What is taken from the library by name: the same text below `core` as below `std`.
const LIBRARY: &[&str] = &["std::cmp::Ordering", "std::marker::PhantomData"];

const WRAPPED: &[&str] = &["u8", "u16", "u32", "u64"];

/// Spaces at the ends of lines go: ghost text leaves them behind.
fn trimmed(text: &str) -> String {
    let lines: Vec<&str> = text.split('\n').map(|l| l.trim_end_matches(' ')).collect();
    lines.join("\n")
}

/// The source with its ghost text alone taken out: still Rattle.
pub fn without_ghost(file: &str, text: &str) -> Result<String, Refusal> {
    let (tokens, _) = scan(file, text)?;
    kept(
        file,
        text,
        trimmed(&tokens.iter().map(|t| t.text.as_str()).collect::<String>()),
    )
}

fn kept(file: &str, before: &str, after: String) -> Result<String, Refusal> {
    if before.matches('\n').count() != after.matches('\n').count() {
        return Err(Refusal {
            file: file.into(),
            line: 0,
            why: "the lines are not where they were".into(),
        });
    }
    Ok(after)
}

struct Eraser<'a> {
    place: &'a Place<'a>,
    all: Vec<Token>,
    /// The tokens that are code, by their places in `all`.
    code: Vec<usize>,
    out: Erased,
}

impl Eraser<'_> {
    /// The text of a code token, and nothing past either end.
    fn at(&self, i: usize) -> &str {
        self.code.get(i).map_or("", |t| &self.all[*t].text)
    }

    fn back(&self, i: usize, n: usize) -> &str {
        i.checked_sub(n).map_or("", |j| self.at(j))
    }

    fn line(&self, i: usize) -> usize {
        self.code.get(i).map_or(0, |t| self.all[*t].line)
    }

    fn is_word(&self, i: usize) -> bool {
        self.code
            .get(i)
            .is_some_and(|t| self.all[*t].kind == Kind::Word)
    }

    fn is_name(&self, i: usize) -> bool {
        self.is_word(i) && !KEYWORDS.contains(&self.at(i))
    }

    fn refuse<T>(&self, i: usize, why: impl Into<String>) -> Result<T, Refusal> {
        Err(Refusal {
            file: self.place.file.into(),
            line: self.line(i),
            why: why.into(),
        })
    }

    /// How many tokens a `#[derive(..)]` at i has; none where there is no such.
    fn derive(&self, i: usize) -> usize {
        let head: String = (i..i + 7).map(|j| self.at(j)).collect();
        if head != DERIVE {
            return 0;
        }
        let mut j = i + 7;
        while self.at(j) == "," && DERIVED.contains(&self.at(j + 1)) {
            j += 2;
        }
        if self.at(j) == ")" && self.at(j + 1) == "]" {
            j + 2 - i
        } else {
            0
        }
    }

    /// `#[derive(..)]` on a struct or an enum stays, and so does `#[repr(C)]`; `#[unsafe(no_mangle)]` goes to the C boundary. How many tokens go.
    fn attribute(&mut self, i: usize) -> Result<usize, Refusal> {
        let text: String = (i..i + 9).map(|j| self.at(j)).collect();
        let derived = self.derive(i);
        if derived > 0 {
            let after = i + derived;
            let item = after + (self.at(after) == "pub") as usize;
            if !matches!(self.at(item), "struct" | "enum") {
                return self.refuse(
                    i,
                    "`#[derive(..)]` on something else than a struct or an enum",
                );
            }
            self.out.counts.derives += 1;
            return Ok(0);
        }
        if text.starts_with("#[repr(C)]") {
            let after = i + 7 + self.derive(i + 7);
            let name = after + 1 + (self.at(after) == "pub") as usize;
            if self.at(name - 1) != "struct" {
                return self.refuse(i, "`#[repr(C)]` on something else than a struct");
            }
            self.out.layouts.push(self.at(name).into());
            return Ok(0);
        }
        if text.starts_with("#[unsafe(no_mangle)]") {
            self.export(i)?;
            self.out.counts.exports += 1;
            return Ok(7);
        }
        let end = text.find(']').map_or(text.len(), |n| n + 1);
        self.refuse(i, format!("attribute {}", &text[..end]))
    }

    /// The function behind the `#[unsafe(no_mangle)]` at i.
    fn export(&mut self, i: usize) -> Result<(), Refusal> {
        let words: Vec<&str> = (i + 7..i + 11).map(|j| self.at(j)).collect();
        if words != ["pub", "extern", "\"C\"", "fn"]
            || !self.is_name(i + 11)
            || self.at(i + 12) != "("
        {
            return self.refuse(
                i,
                "`#[unsafe(no_mangle)]` on something else than `pub extern \"C\" fn NAME(`",
            );
        }
        let (mut j, mut parameters) = (i + 13, Vec::new());
        while self.at(j) != ")" {
            if !self.is_name(j) || self.at(j + 1) != ":" {
                return self.refuse(j, "a parameter at the C boundary that is not `NAME: TYPE`");
            }
            let name = self.at(j).to_string();
            let (mut kind, mut depth) = (Vec::new(), 0);
            j += 2;
            while depth > 0 || !matches!(self.at(j), "," | ")" | "") {
                depth += (self.at(j) == "[") as usize;
                depth -= (self.at(j) == "]" && depth > 0) as usize;
                kind.push(self.at(j));
                j += 1;
            }
            parameters.push((name, kind.join(" ")));
            j += (self.at(j) == ",") as usize;
        }
        if self.at(j + 1) != "-" || self.at(j + 2) != ">" || self.at(j + 4) != "{" {
            return self.refuse(i, "an exported function without a result of one word");
        }
        self.out.exports.push(Export {
            name: self.at(i + 11).into(),
            parameters,
            result: self.at(j + 3).into(),
            line: self.line(i),
        });
        Ok(())
    }

    /// The first word of a path: what it becomes, and how many code tokens behind it go with it.
    fn path(&mut self, i: usize) -> Result<(String, usize), Refusal> {
        let word = self.at(i).to_string();
        if word == "std" {
            let named: String = (i..i + 5).map(|j| self.at(j)).collect();
            if LIBRARY.contains(&named.as_str()) {
                self.out.counts.paths += 1;
                return Ok(("core".into(), 0));
            }
            let text: String = (i..i + 5).map(|j| self.at(j)).collect();
            let known = text
                .strip_prefix("std::num::wrapping_")
                .and_then(|f| f.split_once('_'));
            return match known {
                Some((o @ ("add" | "sub"), t)) if WRAPPED.contains(&t) && self.at(i + 5) == "(" => {
                    let made = format!("{t}::wrapping_{o}");
                    self.out.counts.wrapping += 1;
                    Ok((made, 4))
                }
                Some((_, "usize")) => {
                    self.refuse(i, format!("`{text}`: usize has 32 bits on some targets"))
                }
                _ => self.refuse(i, format!("`{text}`")),
            };
        }
        if NUMBERS.contains(&word.as_str()) && OF_NUMBERS.contains(&self.at(i + 2)) {
            return Ok((word, 0));
        }
        if word == "usize" {
            return match self.at(i + 2) {
                "from" => Ok((word, 0)),
                other => self.refuse(
                    i,
                    format!("`usize::{other}`: usize has 32 bits on some targets"),
                ),
            };
        }
        if word == "crate" {
            self.out.counts.paths += 1;
            return Ok((format!("crate::{}", self.place.krate), 0));
        }
        if self.place.crates.contains(&word) {
            if !self.place.uses.contains(&word) {
                return self.refuse(
                    i,
                    format!(
                        "`{word}` is not among the crates that {} uses",
                        self.place.krate
                    ),
                );
            }
            self.out.counts.paths += 1;
            return Ok((format!("crate::{word}"), 0));
        }
        if word.starts_with(|c: char| c.is_ascii_uppercase()) || self.out.mods.contains(&word) {
            return Ok((word, 0));
        }
        self.refuse(i, format!("a path that begins with `{word}`"))
    }

    /// A number; one that a usize of 32 bits cannot hold is the longest length, or is refused.
    fn number(&mut self, i: usize) -> Result<(Option<String>, usize), Refusal> {
        let text = self.at(i).to_string();
        let of_usize = text.ends_with("usize")
            || self.back(i, 5) == "const"
                && self.back(i, 3) == ":"
                && self.back(i, 2) == "usize"
                && self.back(i, 1) == "=";
        let digits = text.trim_end_matches("usize").replace('_', "");
        let value = match digits.strip_prefix("0x") {
            Some(hex) => u128::from_str_radix(hex, 16),
            None => digits.parse(),
        };
        if !of_usize || value.is_ok_and(|v| v <= u32::MAX as u128) {
            return Ok((Some(text), 0));
        }
        if text == LONGEST && self.at(i + 1) == ";" {
            self.out.counts.longest += 1;
            return Ok((Some("isize::MAX as usize".into()), 0));
        }
        self.refuse(
            i,
            format!("number `{text}`: usize has 32 bits on some targets"),
        )
    }

    /// `use PATH::NAME;` or `use PATH::{NAME, NAME};`, and nothing else.
    fn import(&mut self, i: usize) -> Result<(), Refusal> {
        let (mut j, mut parts) = (i + 1, Vec::new());
        while self.is_word(j) && self.at(j + 1) == "::" {
            parts.push(self.at(j).to_string());
            j += 2;
        }
        let mut names = Vec::new();
        let end = if self.at(j) == "{" {
            j += 1;
            while self.is_name(j) {
                names.push(self.at(j).to_string());
                j += 1;
                if self.at(j) != "," {
                    break;
                }
                j += 1;
            }
            (self.at(j) == "}").then_some(j + 1)
        } else {
            names.push(self.at(j).to_string());
            self.is_name(j).then_some(j + 1)
        };
        let ends = end.is_some_and(|at| self.at(at) == ";");
        if parts.is_empty() || names.is_empty() || !ends {
            return self.refuse(
                i,
                "`use` of another form than `use PATH::NAME;` or `use PATH::{NAME, NAME};`",
            );
        }
        let head = match parts[0].as_str() {
            "crate" => format!("crate::{}", self.place.krate),
            own if self.out.mods.iter().any(|m| m == own) => {
                format!("crate::{}::{own}", self.place.krate)
            }
            other => format!("crate::{other}"),
        };
        for name in names {
            let path = [vec![head.clone()], parts[1..].to_vec(), vec![name.clone()]]
                .concat()
                .join("::");
            self.out.imports.insert(name, path);
        }
        Ok(())
    }

    /// Whether the path that ends at i is that of a `use`.
    fn is_imported(&self, i: usize) -> bool {
        let mut j = i;
        while self.at(j) == "::" || self.is_name(j) || self.at(j) == "crate" {
            let Some(before) = j.checked_sub(1) else {
                return false;
            };
            j = before;
        }
        self.at(j) == "use"
    }

    /// What a code token becomes, and how many code tokens behind it go with it; None where it goes itself.
    fn token(&mut self, i: usize) -> Result<(Option<String>, usize), Refusal> {
        let (text, next) = (self.at(i).to_string(), self.at(i + 1).to_string());
        let same = Ok((Some(text.clone()), 0));
        if text == "#" {
            let gone = self.attribute(i)?;
            return if gone == 0 {
                same
            } else {
                Ok((None, gone - 1))
            };
        }
        if text == "::"
            && (!self.is_word(i.wrapping_sub(1))
                || matches!(next.as_str(), "*" | "<")
                || next == "{" && !self.is_imported(i))
        {
            return self.refuse(i, "`::` of a form that is not known");
        }
        if self
            .code
            .get(i)
            .is_some_and(|t| self.all[*t].kind == Kind::Number)
        {
            return self.number(i);
        }
        if !self.is_word(i) {
            return same;
        }
        match text.as_str() {
            "extern" => {
                let known = next == "\"C\""
                    && self.at(i + 2) == "fn"
                    && self.back(i, 1) == "pub"
                    && self.back(i, 4) == "no_mangle";
                if !known {
                    return self.refuse(i, "`extern` that exports nothing");
                }
                return Ok((None, 1));
            }
            "fn" if !self.is_name(i + 1) => return self.refuse(i, "`fn` without a name"),
            "pub" if next == "(" => return self.refuse(i, "`pub` with a scope"),
            "mod" => {
                if self.at(i + 2) != ";" || self.place.crates.contains(&next) {
                    return self.refuse(i, "`mod` with a body, or with the name of a crate");
                }
                self.out.mods.push(next);
                return same;
            }
            "use" => self.import(i)?,
            "type" if self.at(i + 2) == "=" && self.at(i + 3) == "[" => {
                self.out.arrays.push(next.clone())
            }
            "as" if next == "usize" => {
                let function = (0..i)
                    .rev()
                    .find(|j| self.at(*j) == "fn")
                    .map_or("", |j| self.at(j + 1))
                    .to_string();
                let line = self.line(i);
                self.out.casts.push(Cast {
                    function,
                    line,
                    text: String::new(),
                });
            }
            _ => {}
        }
        if next == "::" && self.back(i, 1) != "::" {
            let (made, gone) = self.path(i)?;
            return Ok((Some(made), gone));
        }
        let called = next == "!" && matches!(self.at(i + 2), "(" | "[" | "{");
        if called && self.is_name(i) && text != "matches" {
            return self.refuse(i, format!("a macro, `{text}!`"));
        }
        same
    }
}

/// The source as plain Rust. Its first line begins with a comment that names the source.
pub fn erase(place: &Place, text: &str) -> Result<Erased, Refusal> {
    let (all, counts) = scan(place.file, text)?;
    let code: Vec<usize> = (0..all.len())
        .filter(|i| !matches!(all[*i].kind, Kind::Space | Kind::Comment | Kind::Ghost))
        .collect();
    let out = Erased {
        text: String::new(),
        counts,
        mods: Vec::new(),
        exports: Vec::new(),
        casts: Vec::new(),
        imports: BTreeMap::new(),
        layouts: Vec::new(),
        arrays: Vec::new(),
    };
    let mut e = Eraser {
        place,
        all,
        code,
        out,
    };
    let mut made: Vec<Option<String>> = e.all.iter().map(|t| Some(t.text.clone())).collect();
    let mut i = 0;
    while i < e.code.len() {
        let (token, gone) = e.token(i)?;
        made[e.code[i]] = token;
        for j in i + 1..=i + gone {
            made[e.code[j]] = None;
        }
        // The spaces behind what has gone go too.
        for j in i..=i + gone {
            let at = e.code[j] + 1;
            if made[e.code[j]].is_none()
                && e.all
                    .get(at)
                    .is_some_and(|t| t.kind == Kind::Space && !t.text.contains('\n'))
            {
                made[at] = None;
            }
        }
        i += gone + 1;
    }
    let body = kept(
        place.file,
        text,
        trimmed(&made.into_iter().flatten().collect::<String>()),
    )?;
    let lines: Vec<&str> = text.lines().collect();
    for cast in &mut e.out.casts {
        cast.text = lines[cast.line - 1].trim().into();
    }
    e.out.text = format!("/* Made from {}; not to be edited. */ {body}", place.file);
    Ok(e.out)
}

#[cfg(test)]
mod tests {
    use super::kept;

    /// A text that has lost a line is refused, whatever rule lost it.
    #[test]
    fn lines_that_are_lost() {
        assert_eq!(
            kept("a.rt", "x\ny\n", "x\n\n".into()).as_deref(),
            Ok("x\n\n")
        );
        let refusal = kept("a.rt", "x\ny\n", "x\n".into()).unwrap_err();
        assert_eq!(
            refusal.to_string(),
            "a.rt: the lines are not where they were"
        );
    }
}
