# shellcheck shell=bash disable=SC2154
# Sourced by portable/host and portable/arm from the root of the repository: runs checks as parts, each with a line.
# A part is a function of the script, run by another shell of the same script, in which any command that fails ends it
# (`set -e` does not count within `||` and `if`); that shell gets the function's name by the first two words.
made=${PORTABLE_FOLDER:-target/portable} # PORTABLE_FOLDER, below the root: for a portable/arm beside another run; portable/host knows target/portable alone
logs=$made/logs
mkdir -p "$logs"
passed=0 failed='' left=0
part() { # NAME WHAT-IS-MISSING FUNCTION [WORDS]: the last line that it prints is what the part shows
  local name=$1 missing=$2 began=$SECONDS status=0
  shift 2
  if [ -n "$missing" ]; then
    echo "not run: $name ($missing)"
    left=$((left + 1))
    return 1
  fi
  bash "$script" --part "$@" >"$logs/$name.log" 2>&1 </dev/null || status=$?
  if [ "$status" -eq 0 ]; then
    printf '%-16s %3d s  %s\n' "$name" $((SECONDS - began)) "$(tail -n 1 "$logs/$name.log")"
    passed=$((passed + 1))
    return 0
  fi
  printf '%-16s %3d s  FAILED, status %d; the last lines of %s:\n' "$name" $((SECONDS - began)) "$status" "$logs/$name.log"
  tail -n 30 "$logs/$name.log"
  failed="$failed $name"
  return 1
}
# The script's shell for a part: the rest of the script is not run.
one_part() { # WORDS: those of the script
  if [ "${1-}" = --part ]; then
    shift
    set -e
    "$@"
    exit 0
  fi
}
end() { # WHAT: the last line
  local others=''
  [ "$left" -eq 0 ] || others=", $left not run"
  if [ -n "$failed" ]; then
    echo "$1: FAILED:$failed; parts that passed: $passed$others"
    exit 1
  fi
  if [ "$passed" -eq 0 ]; then
    echo "$1: nothing was run$others"
    exit 2
  fi
  echo "$1: every part that was run has passed: $passed$others"
  exit 0
}

# The proved library: TAMBURELVI_LIB's, or that of the sources.
proved=${TAMBURELVI_LIB:+$TAMBURELVI_LIB/libtamburelvi.a}
[ -n "$proved" ] || proved=$(tools/built --path library tamburelvi)

# The scripts, and the answers that the proved program gives to them: the recorded sample, document 01's trial values, random lines.
# A line that puts a limit of 0 into the settings is left out: in C that is no limit, and the sample has none.
loader=/lib64/ld-linux-x86-64.so.2
scripts() {
  local replay=${TAMBURELVI_REPLAY-} kind n differ=target/differential/cargo/release/differ
  [ -n "$replay" ] || replay=$(tools/built program replay)
  [ -x "$replay" ] || { echo "no program $replay"; return 1; }
  cargo build --quiet --release --offline --jobs 1 --manifest-path differential/tool/Cargo.toml --target-dir target/differential/cargo
  rm -rf "$made/scripts" && mkdir -p "$made/scripts"
  cp crates/replay/stdin "$made/scripts/sample"
  cp crates/replay/stdout "$made/scripts/sample.answers"
  grep -v '^raw_limit 00*$' differential/trials.script >"$made/scripts/trials"
  for kind in $("$differ" kinds | cut -d: -f1); do
    for n in $(seq 60); do "$differ" script "$kind" 1 "$n"; done
  done | grep -v '^raw_limit 00*$' >"$made/scripts/random"
  for n in trials random; do "$loader" "$replay" <"$made/scripts/$n" >"$made/scripts/$n.answers"; done
  n=$(wc -l <"$made/scripts/random")
  [ "$n" -ge 80000 ] || { echo "only $n random lines"; return 1; }
  [ "$(wc -l <"$made/scripts/trials.answers")" -ge 90 ] || { echo "no answers to the trial values"; return 1; }
  # Lines that the answers have to have: a release, a refused merge, the whole state's end, a settings record, each refusal of one.
  for n in '^0 release ' '^8$' '^\.$' '^0 535402' '^22$' '^23$'; do grep -q "$n" "$made/scripts/random.answers" || { echo "no answer $n"; return 1; }; done
  echo "the proved program's answers to $(wc -l <"$made/scripts/sample") lines of the sample, $(wc -l <"$made/scripts/trials") of trial values, $(wc -l <"$made/scripts/random") random ones"
}
# The answers of a program, by a command that takes the script's name and writes the answers to a file: held to the proved program's.
answers() { # TO COMMAND..
  local to=$1 n
  shift
  for n in sample trials random; do
    rm -f "$to.$n"
    "$@" "$made/scripts/$n" "$to.$n"
    cmp "$to.$n" "$made/scripts/$n.answers"
  done
}
