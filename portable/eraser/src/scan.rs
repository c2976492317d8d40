//! Source text to tokens, ghost text taken out. What is not known here is refused.

use std::fmt;

/// Why a source is refused, and where.
#[derive(Debug, PartialEq)]
pub struct Refusal {
    pub file: String,
    /// From 1; 0 where the whole file, or something that is no file, is meant.
    pub line: usize,
    pub why: String,
}

impl fmt::Display for Refusal {
    fn fmt(&self, f: &mut fmt::Formatter) -> fmt::Result {
        match self.line {
            0 => write!(f, "{}: {}", self.file, self.why),
            n => write!(f, "{}:{n}: {}", self.file, self.why),
        }
    }
}

#[derive(Debug, PartialEq, Clone, Copy)]
pub enum Kind {
    Space,
    Comment,
    Lifetime,
    Word,
    Number,
    /// The text "C" with its quotes, the one string that there is.
    Abi,
    Sign,
    /// Where ghost text stood: its line breaks.
    Ghost,
}

#[derive(Debug, PartialEq, Clone)]
pub struct Token {
    pub kind: Kind,
    pub text: String,
    pub line: usize,
}

/// The words of Rust that the sources use and that mean the same in both languages.
pub const KEYWORDS: &[&str] = &[
    "Self", "as", "const", "continue", "crate", "else", "enum", "extern", "false", "fn", "for",
    "if", "impl", "in", "let", "match", "mod", "mut", "pub", "return", "self", "struct", "trait",
    "true", "type", "use", "where", "while",
];

/// Words of Rust or Rattle that the sources do not use: a keyword of one language could be a name of the other, or mean something else.
pub const REFUSED_WORDS: &[&str] = &[
    "abstract",
    "async",
    "await",
    "become",
    "box",
    "break",
    "char",
    "do",
    "dyn",
    "f32",
    "f64",
    "final",
    "gen",
    "ghost",
    "i128",
    "isize",
    "loop",
    "macro",
    "macro_rules",
    "move",
    "override",
    "priv",
    "raw",
    "ref",
    "safe",
    "static",
    "str",
    "super",
    "try",
    "typeof",
    "u128",
    "union",
    "unsafe",
    "unsized",
    "virtual",
    "yield",
    "f16",
    "f128",
    "auto",
];

/// The line at a crate's head that has the prover try its tactics.
const TACTIC: &str = "#![tactic(auto)]";

/// The beginning of an attribute that names lemmas to the prover, on a function.
const TACTIC_OF: &str = "#[tactic(";

/// The one place where the word `unsafe` may stand: the attribute of a function that C calls.
const EXPORTED: &str = "#[unsafe(no_mangle)]";

const SUFFIXES: [&str; 9] = [
    "u8", "u16", "u32", "u64", "usize", "i8", "i16", "i32", "i64",
];

/// How often each rule was used.
#[derive(Debug, Default, PartialEq, Clone)]
pub struct Counts {
    pub tactics: usize,
    pub ghost_uses: usize,
    pub ghost_members: usize,
    pub contracts: usize,
    pub derives: usize,
    pub paths: usize,
    pub wrapping: usize,
    pub exports: usize,
    pub longest: usize,
}

struct Scanner<'a> {
    file: &'a str,
    text: &'a str,
    at: usize,
    line: usize,
    tokens: Vec<Token>,
    counts: Counts,
}

fn is_word(b: u8) -> bool {
    b.is_ascii_alphanumeric() || b == b'_'
}

impl<'a> Scanner<'a> {
    fn rest(&self) -> &'a str {
        &self.text[self.at..]
    }

    fn byte(&self, n: usize) -> u8 {
        *self.text.as_bytes().get(self.at + n).unwrap_or(&0)
    }

    fn refuse<T>(&self, why: impl Into<String>) -> Result<T, Refusal> {
        Err(Refusal {
            file: self.file.into(),
            line: self.line,
            why: why.into(),
        })
    }

    fn push(&mut self, kind: Kind, length: usize) {
        let text = &self.text[self.at..self.at + length];
        self.tokens.push(Token {
            kind,
            text: text.into(),
            line: self.line,
        });
        self.line += text.matches('\n').count();
        self.at += length;
    }

    /// Leaves the line breaks of the next bytes, which are ghost text.
    fn erase(&mut self, length: usize) {
        let breaks = self.text[self.at..self.at + length].matches('\n').count();
        self.tokens.push(Token {
            kind: Kind::Ghost,
            text: "\n".repeat(breaks),
            line: self.line,
        });
        self.line += breaks;
        self.at += length;
    }

    fn word_length(&self) -> usize {
        self.rest().bytes().take_while(|b| is_word(*b)).count()
    }

    /// `#![tactic(auto)]`, which the prover alone reads, outside every item.
    fn tactic(&mut self, depth: usize) -> Result<(), Refusal> {
        if depth != 0 {
            return self.refuse(format!("`{TACTIC}` within an item"));
        }
        self.counts.tactics += 1;
        self.erase(TACTIC.len());
        Ok(())
    }

    /// `#[tactic(..)]` on a function: words, paths and commas within the brackets.
    fn tactic_of(&mut self) -> Result<(), Refusal> {
        let text = self.rest();
        let Some(end) = text.find(")]\n") else {
            return self.refuse(format!("`{TACTIC_OF}` that does not end its line"));
        };
        let inner = &text[TACTIC_OF.len()..end];
        if !inner.bytes().all(|b| is_word(b) || b":,() \n".contains(&b)) {
            return self.refuse(format!("`{TACTIC_OF}` of a form that is not known"));
        }
        self.counts.tactics += 1;
        self.erase(end + 2);
        Ok(())
    }

    /// The end of the braces that open at `start`, from there. No quote and no comment may stand in them, since it could hide a brace.
    fn braces(&mut self, what: &str, start: usize) -> Result<usize, Refusal> {
        let bytes = &self.rest().as_bytes()[start..];
        let mut depth = 0usize;
        for (i, b) in bytes.iter().enumerate() {
            let two = &bytes[i..bytes.len().min(i + 2)];
            if b"\"'\\`".contains(b) || [b"//".as_slice(), b"/*", b"--"].contains(&two) {
                self.line += bytes[..i].iter().filter(|b| **b == b'\n').count();
                return self.refuse("a quote or a comment in ghost text");
            }
            depth += (*b == b'{') as usize;
            if *b == b'}' {
                depth -= 1;
                if depth == 0 {
                    return Ok(start + i + 1);
                }
            }
        }
        self.refuse(format!("`{what}` whose braces do not close"))
    }

    /// `ghost NAME: { .. };` of a trait or `ghost NAME = { .. };` of an impl: within one pair of braces.
    fn ghost_member(&mut self, depth: usize) -> Result<(), Refusal> {
        let after = &self.rest()["ghost ".len()..];
        let name = after.bytes().take_while(|b| is_word(*b)).count();
        let sign = [": {", " = {"]
            .into_iter()
            .find(|sign| after[name..].starts_with(sign));
        let (Some(sign), true) = (sign, depth == 1 && name > 0) else {
            return self.refuse("the word `ghost`");
        };
        let end = self.braces("ghost", "ghost ".len() + name + sign.len() - 1)?;
        if self.byte(end) != b';' {
            return self.refuse("a ghost member that does not end with its braces");
        }
        self.counts.ghost_members += 1;
        self.erase(end + 1);
        Ok(())
    }

    /// `ghost use PATH;` or `ghost use PATH.{NAMES};`, outside every item.
    fn ghost_use(&mut self, depth: usize) -> Result<(), Refusal> {
        if depth != 0 {
            return self.refuse("`ghost use` within an item");
        }
        let Some(end) = self.rest().find(';') else {
            return self.refuse("`ghost use` that does not end");
        };
        let inner = &self.rest()["ghost use ".len()..end];
        let names = inner.split_once('{');
        let plain = |s: &str| {
            !s.contains(['{', '}', '"', '\'', '\\', '`', '\n'])
                && !s.contains("//")
                && !s.contains("--")
                && !s.contains("/*")
        };
        let known = match names {
            None => plain(inner),
            Some((path, list)) => {
                plain(path) && path.ends_with('.') && list.strip_suffix('}').is_some_and(plain)
            }
        };
        if !known {
            return self.refuse("`ghost use` of a form that is not known");
        }
        self.counts.ghost_uses += 1;
        self.erase(end + 1);
        Ok(())
    }

    /// `requires`, `ensures`, perhaps a name, then braces.
    fn contract(&mut self, word: &str, signature: bool) -> Result<(), Refusal> {
        if !signature {
            return self.refuse(format!("`{word}` that belongs to no function's signature"));
        }
        let after = &self.rest()[word.len()..];
        let Some(brace) = after.find('{') else {
            return self.refuse(format!("`{word}` without braces"));
        };
        let name = &after[..brace];
        let inner = name.trim_matches(' ');
        let spaced = name == " " || name == format!(" {inner} ");
        if !spaced || !inner.bytes().all(|b| b.is_ascii_lowercase() || b == b'_') {
            return self.refuse(format!("`{word}` of a form that is not known"));
        }
        let end = self.braces(word, word.len() + brace)?;
        self.counts.contracts += 1;
        self.erase(end);
        Ok(())
    }

    fn number(&mut self) -> Result<(), Refusal> {
        let length = self.word_length();
        let word = &self.rest()[..length];
        let (digits, hex) = match word.strip_prefix("0x") {
            Some(d) => (d, true),
            None => (word, false),
        };
        let end = digits
            .bytes()
            .take_while(|b| *b == b'_' || b.is_ascii_digit() || hex && b.is_ascii_hexdigit())
            .count();
        let suffix = &digits[end..];
        if end == 0 || !(suffix.is_empty() || SUFFIXES.contains(&suffix)) {
            return self.refuse(format!("number `{word}`"));
        }
        // A tuple's field is a number; a float, or a method of a number, has a single dot behind it.
        if self.byte(length) == b'.' && self.byte(length + 1) != b'.' {
            return self.refuse(format!("number `{word}` with a dot behind it"));
        }
        self.push(Kind::Number, length);
        Ok(())
    }

    fn run(mut self) -> Result<(Vec<Token>, Counts), Refusal> {
        let (mut depth, mut signature) = (0usize, None);
        while self.at < self.text.len() {
            let b = self.byte(0);
            if b == b' ' || b == b'\n' {
                let n = self
                    .rest()
                    .bytes()
                    .take_while(|b| *b == b' ' || *b == b'\n')
                    .count();
                self.push(Kind::Space, n);
            } else if self.rest().starts_with("//") {
                if matches!(self.byte(2), b'/' | b'!') {
                    return self.refuse("a doc comment");
                }
                let n = self.rest().find('\n').unwrap_or(self.rest().len());
                if self.rest()[..n].contains('\r') {
                    return self.refuse("a carriage return");
                }
                self.push(Kind::Comment, n);
            } else if self.rest().starts_with("/*") {
                return self.refuse("a comment in `/* */`");
            } else if self.rest().starts_with("\"C\"") {
                self.push(Kind::Abi, 3);
            } else if b == b'\'' {
                let n = self.rest()[1..]
                    .bytes()
                    .take_while(u8::is_ascii_lowercase)
                    .count();
                if n == 0 || self.byte(n + 1) == b'\'' || is_word(self.byte(n + 1)) {
                    return self.refuse("a quote");
                }
                self.push(Kind::Lifetime, n + 1);
            } else if b.is_ascii_digit() {
                self.number()?;
            } else if is_word(b) {
                let n = self.word_length();
                let word = &self.rest()[..n];
                match word {
                    "ghost" if self.rest().starts_with("ghost use ") => self.ghost_use(depth)?,
                    "ghost" if self.byte(n) == b' ' => self.ghost_member(depth)?,
                    "requires" | "ensures" => self.contract(word, signature == Some(depth))?,
                    _ if REFUSED_WORDS.contains(&word) => {
                        return self.refuse(format!("the word `{word}`"))
                    }
                    _ if matches!(self.byte(n), b'"' | b'\'' | b'#') => {
                        return self.refuse(format!("`{word}` with a quote or `#` behind it"))
                    }
                    _ => {
                        if word == "fn" {
                            signature = Some(depth);
                        }
                        self.push(Kind::Word, n);
                    }
                }
            } else if self.rest().starts_with(TACTIC) {
                self.tactic(depth)?;
            } else if self.rest().starts_with(TACTIC_OF) {
                self.tactic_of()?;
            } else if self.rest().starts_with(EXPORTED) {
                for part in ["#", "[", "unsafe", "(", "no_mangle", ")", "]"] {
                    let kind = if is_word(part.as_bytes()[0]) {
                        Kind::Word
                    } else {
                        Kind::Sign
                    };
                    self.push(kind, part.len());
                }
            } else if self.rest().starts_with("::") {
                self.push(Kind::Sign, 2);
            } else if b"-+*%/=<>!&|.,;:(){}[]#_?".contains(&b) {
                if matches!(b, b'{' | b';') && signature == Some(depth) {
                    signature = None;
                }
                match b {
                    b'(' | b'{' | b'[' => depth += 1,
                    b')' | b'}' | b']' if depth == 0 => {
                        return self.refuse("a bracket that was not opened")
                    }
                    b')' | b'}' | b']' => depth -= 1,
                    _ => {}
                }
                self.push(Kind::Sign, 1);
            } else {
                let c = self.rest().chars().next().unwrap_or(' ');
                return self.refuse(format!("unknown text {c:?}"));
            }
        }
        if depth != 0 {
            return self.refuse("a bracket that does not close");
        }
        Ok((self.tokens, self.counts))
    }
}

/// The tokens of a source, ghost text taken out, and how often the rules of ghost text were used.
pub fn scan(file: &str, text: &str) -> Result<(Vec<Token>, Counts), Refusal> {
    Scanner {
        file,
        text,
        at: 0,
        line: 1,
        tokens: Vec::new(),
        counts: Counts::default(),
    }
    .run()
}
