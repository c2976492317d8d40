//! Makes the crate's test copy from its published files, by text substitution only, and builds its driver.

use crate::mutants::Mutant;
use std::fs;
use std::path::{Path, PathBuf};
use std::process::Command;

/// One substitution: the text in the file, which stands there exactly once, and what takes its place.
pub struct Substitution {
    file: &'static str,
    published: &'static str,
    copy: &'static str,
}

/// All that the reference changes in the published files. Joining does nothing because the stand-in for the
/// crate socket2 does nothing; fresh state and settings are those of the crate's own constructor.
const SUBSTITUTIONS: &[Substitution] = &[
    Substitution {
        file: "receive.rs",
        published: "use std::collections::HashMap;",
        copy: "use std::collections::BTreeMap as HashMap;",
    },
    Substitution {
        file: "receive.rs",
        published: "use std::time::{Duration, Instant};",
        copy: "use {crate::clock::Instant, std::time::Duration};",
    },
];

/// Appended to the end of receive.rs: the driver's access to private fields.
const APPENDED: (&str, &str) = ("receive.rs", "pub mod access;\n");

/// What `recv` does before it takes a packet: the driver's poll makes the same two calls in this order.
const POLL: (&str, &str) = (
    "receive.rs",
    "self.sequences.check_timeouts(self.announce_timeout)?;\n        self.check_waiting_data_timeouts();\n",
);

/// All that `reset_sources` does: the driver's `reset_pairs` is the first line, its `reset_discovery` the other two.
const RESET: (&str, &str) = (
    "receive.rs",
    "pub fn reset_sources(&mut self) {\n        self.sequences.clear();\n        self.partially_discovered_sources.clear();\n        self.discovered_sources.clear();\n    }\n",
);

const PUBLISHED: [&str; 3] = ["receive.rs", "packet.rs", "error.rs"];
const DRIVER: [(&str, &str); 6] = [
    ("main.rs", "main.rs"),
    ("access.rs", "receive/access.rs"),
    ("clock.rs", "clock.rs"),
    ("script.rs", "script.rs"),
    ("record.rs", "record.rs"),
    ("sacn_parse_pack_error.rs", "sacn_parse_pack_error.rs"),
];
/// The benchmark of both sides: the package, and its own files with their places in it.
const BENCHMARK: &str = "benchmark";
const BENCHMARK_FILES: [(&str, &str); 3] = [
    ("bench/receiver/main.rs", "main.rs"),
    ("bench/receiver/access.rs", "receive/access.rs"),
    (
        "differential/driver/sacn_parse_pack_error.rs",
        "sacn_parse_pack_error.rs",
    ),
];
const STAND_INS: [&str; 5] = ["uuid", "thiserror", "socket2", "byteorder", "libc"];

/// Where things lie, relative to the root of the repository.
pub struct Places {
    pub published: PathBuf,
    pub work: PathBuf,
}

impl Places {
    pub fn new() -> Places {
        let published = std::env::var("SACN_SRC").unwrap_or("../shared/docs/src".into());
        Places {
            published: published.into(),
            work: "target/differential".into(),
        }
    }

    pub fn driver(&self, package: &str) -> PathBuf {
        self.work.join("cargo/release").join(package)
    }
}

/// The number of places where `part` stands in `text`.
fn count(text: &str, part: &str) -> usize {
    text.matches(part).count()
}

fn test_copy(file: &str, published: &str) -> Result<String, String> {
    let mut text = published.to_string();
    for s in SUBSTITUTIONS.iter().filter(|s| s.file == file) {
        if count(&text, s.published) != 1 || count(&text, s.copy) != 0 {
            return Err(format!("{file}: expected once: {}", s.published));
        }
        text = text.replace(s.published, s.copy);
    }
    if file == APPENDED.0 {
        text += APPENDED.1;
    }
    if file == POLL.0 && count(&text, POLL.1) != 1 {
        return Err(format!(
            "{file}: recv's two timeout checks are not as expected"
        ));
    }
    if file == RESET.0 && count(&text, RESET.1) != 1 {
        return Err(format!("{file}: reset_sources is not as expected"));
    }
    Ok(text)
}

fn undone(file: &str, copy: &str) -> Option<String> {
    let mut text = copy.to_string();
    if file == APPENDED.0 {
        text = text.strip_suffix(APPENDED.1)?.to_string();
    }
    for s in SUBSTITUTIONS.iter().filter(|s| s.file == file) {
        text = text.replace(s.copy, s.published);
    }
    Some(text)
}

fn write(path: &Path, text: &str) -> Result<(), String> {
    // An unchanged file keeps its time, so that cargo does not build it again.
    if fs::read_to_string(path).is_ok_and(|old| old == text) {
        return Ok(());
    }
    let folder = path.parent().expect("a folder");
    fs::create_dir_all(folder).map_err(|e| format!("{}: {e}", folder.display()))?;
    fs::write(path, text).map_err(|e| format!("{}: {e}", path.display()))
}

fn read(path: &Path) -> Result<String, String> {
    fs::read_to_string(path).map_err(|e| format!("{}: {e}", path.display()))
}

/// Writes the package of the reference, or of a mutant, below target/.
fn make_package(places: &Places, package: &str, mutant: Option<&Mutant>) -> Result<(), String> {
    let folder = places.work.join(package);
    let mut sources = Vec::new();
    for file in PUBLISHED {
        let published = read(&places.published.join(file))?;
        let copy = test_copy(file, &published)?;
        if undone(file, &copy).as_deref() != Some(&published) {
            return Err(format!(
                "{file}: undoing the substitutions does not give the published text"
            ));
        }
        sources.push((file, file, copy));
    }
    for (file, place) in DRIVER {
        sources.push((
            file,
            place,
            read(&Path::new("differential/driver").join(file))?,
        ));
    }
    if let Some(m) = mutant {
        let (_, _, text) = sources
            .iter_mut()
            .find(|(file, _, _)| *file == m.file)
            .ok_or(format!("{}: no file {}", m.name, m.file))?;
        *text = m.apply(text)?;
    }
    for (_, place, text) in sources {
        write(&folder.join("src").join(place), &text)?;
    }
    let mut cargo = format!(
        "[package]\nname = \"{package}\"\nversion = \"0.0.0\"\nedition = \"2024\"\npublish = false\n\n\
         [profile.release]\nopt-level = {}\ndebug = false\nincremental = false\n\n[workspace]\n\n[dependencies]\n",
        if mutant.is_some() { 0 } else { 2 }
    );
    for name in STAND_INS {
        cargo += &dependency(name, &Path::new("differential/standins").join(name))?;
    }
    write(&folder.join("Cargo.toml"), &cargo)
}

/// Writes the benchmark's package below target/: the published files as they are but for the benchmark's access to
/// private fields, the benchmark's own files, and the port's Rust binding.
fn make_benchmark(places: &Places) -> Result<(), String> {
    let folder = places.work.join(BENCHMARK);
    for file in PUBLISHED {
        let mut text = read(&places.published.join(file))?;
        if file == APPENDED.0 {
            text += APPENDED.1;
        }
        if file == POLL.0 && count(&text, POLL.1) != 1 {
            return Err(format!(
                "{file}: recv's two timeout checks are not as expected"
            ));
        }
        write(&folder.join("src").join(file), &text)?;
    }
    for (file, place) in BENCHMARK_FILES {
        write(&folder.join("src").join(place), &read(Path::new(file))?)?;
    }
    let mut cargo = format!(
        "[package]\nname = \"{BENCHMARK}\"\nversion = \"0.0.0\"\nedition = \"2024\"\npublish = false\n\n[workspace]\n\n[dependencies]\n"
    );
    for name in STAND_INS {
        cargo += &dependency(name, &Path::new("differential/standins").join(name))?;
    }
    cargo += &dependency("tamburelvi", Path::new("bindings/rust"))?;
    write(&folder.join("Cargo.toml"), &cargo)
}

fn dependency(name: &str, folder: &Path) -> Result<String, String> {
    let path = fs::canonicalize(folder).map_err(|e| format!("{name}: {e}"))?;
    Ok(format!("{name} = {{ path = {path:?} }}\n"))
}

/// Makes and builds the benchmark; answers where it lies.
pub fn build_benchmark(places: &Places) -> Result<PathBuf, String> {
    make_benchmark(places)?;
    cargo_build(places, BENCHMARK)
}

/// Makes and builds the driver over the reference (`None`) or over a mutant; answers where it lies.
pub fn build(places: &Places, mutant: Option<&Mutant>) -> Result<PathBuf, String> {
    let package = mutant.map_or("reference".to_string(), |m| format!("mutant-{}", m.name));
    make_package(places, &package, mutant)?;
    cargo_build(places, &package)
}

fn cargo_build(places: &Places, package: &str) -> Result<PathBuf, String> {
    let status = Command::new("cargo")
        .args(["build", "--quiet", "--release", "--offline", "--jobs", "1"])
        .arg("--manifest-path")
        .arg(places.work.join(package).join("Cargo.toml"))
        .arg("--target-dir")
        .arg(places.work.join("cargo"))
        .status()
        .map_err(|e| format!("cargo: {e}"))?;
    if !status.success() {
        return Err(format!("{package} does not build"));
    }
    Ok(places.driver(package))
}
