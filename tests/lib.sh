# shellcheck shell=bash
# What the gate and the tests share: the tools that they need, and how checks are counted. Read at the repository's root.
#
# A check is counted once, by what decides it. What is only built, or proved once more, on the way to a check is a step.
rust=$(sed -n 's/^rust-version = "\(.*\)"$/\1/p' tests/oracle/Cargo.toml)
passed=0
failed=0
# what stands before the name of a part
mark=--
log=$(mktemp)
trap 'rm -f "$log"' EXIT

# how to get a tool on Debian, after its name
source_of() {
  case $1 in
  rt) echo ": it is the Rattle kit's" ;;
  cargo | rustc) echo " $rust: rustup toolchain install $rust (https://rustup.rs)" ;;
  nm | readelf) echo ": apt-get install binutils" ;;
  cmp | diff) echo ": apt-get install diffutils" ;;
  *) echo ": apt-get install $1" ;;
  esac
}

# is_there TOOL: whether a tool is there; those of Rust have to be of the version that the packages name
is_there() {
  case $1 in
  cargo | rustc) "$1" --version 2>/dev/null | grep -q "^$1 $rust " ;;
  *) command -v "$1" >/dev/null ;;
  esac
}

# needs TOOL..: names all tools that are missing, and ends the script if there are any
needs() {
  local tool lacking=0
  # rustup may have that version beside another one, which is its default
  is_there rustc || export RUSTUP_TOOLCHAIN=$rust
  for tool; do
    is_there "$tool" && continue
    echo "missing: $tool$(source_of "$tool")"
    lacking=1
  done
  [ "$lacking" -eq 0 ] || give_up
}

# verdict: the last line; a script that has checked nothing has failed
verdict() {
  if [ "$passed" -eq 0 ] && [ "$failed" -eq 0 ]; then
    echo "nothing was checked"
    failed=1
  fi
  echo "$passed passed, $failed failed"
  [ "$failed" -eq 0 ]
}

# one more failure, after which nothing else can be checked
give_up() {
  failed=$((failed + 1))
  verdict
  exit 1
}

# step NAME COMMAND..: what the checks after it need; it only counts if it fails
step() {
  local name=$1
  shift
  "$@" >"$log" 2>&1 && return
  echo "$name: failed"
  tail -n 40 "$log"
  give_up
}

# build_program NAME: proves and builds a program, as target/bin/NAME. In the gate that has been done just now, by `rt ci`, which leaves it in the
# crate's folder.
build_program() {
  if [ -n "${IN_GATE-}" ]; then
    mkdir -p target/bin && cp "crates/$1/out/$1" target/bin/
  else
    tools/build "$1"
  fi
}

# the second planner's command, as target/oracle/release/oracle
build_second_planner() {
  CARGO_TARGET_DIR=target/oracle cargo build --release --offline -q --manifest-path tests/oracle/Cargo.toml
}

# the library that makes calls fail, as target/fails.so
build_failing_calls() {
  gcc -Wall -Wextra -Werror -shared -fPIC tests/fails.c -o target/fails.so
}

# run_python SCRIPT ARGUMENT..: a script that imports tests/programs.py; nothing is compiled beside the source
run_python() {
  PYTHONPATH=tests python3 -B "$@"
}

# one NAME COMMAND..: one check, which passes if the command does; its output is shown if not
one() {
  local name=$1
  shift
  if "$@" >"$log" 2>&1; then
    passed=$((passed + 1))
  else
    failed=$((failed + 1))
    echo "$name: failed"
    tail -n 40 "$log"
  fi
}

# many NAME COMMAND..: the checks of a command whose last line is 'N passed, M failed'. A command without that line, with no
# check at all, or with a bad exit status and no failure to account for it, is a failure.
many() {
  local name=$1 code ok bad
  shift
  echo "$mark $name"
  "$@" 2>&1 | tee "$log"
  code=${PIPESTATUS[0]}
  read -r ok bad < <(tail -n 1 "$log" | sed -n 's/^\([0-9]\+\) passed, \([0-9]\+\) failed$/\1 \2/p')
  passed=$((passed + ${ok:-0}))
  failed=$((failed + ${bad:-0}))
  if [ "${ok:-0} ${bad:-0}" = "0 0" ] || { [ "$code" -ne 0 ] && [ "$bad" -eq 0 ]; }; then
    echo "$name: failed, with ${ok:-no} checks passed and exit status $code"
    failed=$((failed + 1))
  fi
}
