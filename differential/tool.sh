# Sourced from the root of the repository by differential/run, crate, sample and mutants and by bench/receiver/run: sees that
# cargo and the crate's published files are there, and builds the program behind them.
published=${SACN_SRC:-../shared/docs/src}
for file in receive.rs packet.rs error.rs; do
  if [ ! -r "$published/$file" ]; then
    echo "$0: no $file of the crate sacn 0.11.1 in $published: name the folder with its published files by SACN_SRC" >&2
    exit 2
  fi
done
if ! cargo --version >/dev/null 2>&1; then
  echo "$0: no cargo, which builds the tool and the crate's test copy" >&2
  exit 2
fi
cargo build --quiet --release --offline --jobs 1 --manifest-path differential/tool/Cargo.toml --target-dir target/differential/cargo || exit 2
differ=target/differential/cargo/release/differ
