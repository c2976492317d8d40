//! eraser package REPOSITORY DIR: the package's sources, to DIR/src. eraser ghost REPOSITORY DIR: the sources without ghost text, to DIR/crates.
//! eraser casts REPOSITORY: each `as usize` of the sources. Status 1 where a source is refused, 2 where something cannot be read or written.

use eraser::package;
use std::collections::BTreeMap;
use std::path::Path;
use std::process::ExitCode;

fn write(folder: &Path, files: &BTreeMap<String, String>) -> Result<(), String> {
    for (name, text) in files {
        let path = folder.join(name);
        let parent = path.parent().unwrap_or(folder);
        std::fs::create_dir_all(parent)
            .and_then(|()| std::fs::write(&path, text))
            .map_err(|e| format!("{}: cannot be written: {e}", path.display()))?;
    }
    Ok(())
}

fn run(words: &[&str]) -> Result<(), (u8, String)> {
    let refused = |e: eraser::scan::Refusal| (1, e.to_string());
    let unwritten = |e: String| (2, e);
    match words {
        ["package", repository, folder] => {
            let sources = package::read(Path::new(repository)).map_err(refused)?;
            let p = package::package(&sources).map_err(refused)?;
            write(&Path::new(folder).join("src"), &p.files).map_err(unwritten)?;
            let c = &p.counts;
            println!(
                "{} crates, {} files, {} C symbols; tactics {}, ghost use {}, ghost members {}, contracts {}, derives {}, paths {}, wrapping {}, exports {}, longest {}",
                sources.wanted.len(), p.sources, p.symbols, c.tactics, c.ghost_uses, c.ghost_members, c.contracts, c.derives, c.paths, c.wrapping, c.exports,
                c.longest
            );
        }
        ["ghost", repository, folder] => {
            let sources = package::read(Path::new(repository)).map_err(refused)?;
            let files = package::ghostless(&sources).map_err(refused)?;
            write(Path::new(folder), &files).map_err(unwritten)?;
            println!("{} crates, {} files", sources.wanted.len(), files.len());
            for c in &sources.wanted {
                println!("crate {c}");
            }
        }
        ["casts", repository] => {
            let sources = package::read(Path::new(repository)).map_err(refused)?;
            let p = package::package(&sources).map_err(refused)?;
            for (file, line, function, text) in &p.casts {
                println!("{file}:{line}: {function}: {text}");
            }
        }
        _ => {
            return Err((
                2,
                "eraser package REPOSITORY DIR | ghost REPOSITORY DIR | casts REPOSITORY".into(),
            ))
        }
    }
    Ok(())
}

fn main() -> ExitCode {
    let words: Vec<String> = std::env::args().skip(1).collect();
    match run(&words.iter().map(String::as_str).collect::<Vec<_>>()) {
        Ok(()) => ExitCode::SUCCESS,
        Err((status, why)) => {
            eprintln!("eraser: {why}");
            ExitCode::from(status)
        }
    }
}
