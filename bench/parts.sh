# shellcheck shell=bash
# What bench/run and tests/speed/run have in common; both are at the repository's root when they read this.
archive=target/staticlib/libreserve.a
out=target/bench
program=$out/release/bench
export CARGO_TARGET_DIR=$PWD/$out

# the archives of the library and of the former count
build_archives() {
  local name
  for name in reserve bytewise; do
    tools/build "$name" >"$out/archive.log" 2>&1 || { cat "$out/archive.log" && return 1; }
  done
}

# build_program [ARGUMENT OF RUSTC..]: the program, linked with the archives
build_program() {
  cargo rustc --release --offline -q --manifest-path bench/Cargo.toml --bin bench -- "$@"
}

# The instructions of calls, collected within the planners' functions, with one part of the file for each call. The
# memset and memcpy of glibc are held to their plain loops, whatever the processor has: callgrind would count each
# byte of a `rep stosb` as an instruction.
count_calls() {
  local plain=-AVX512F,-AVX512VL,-AVX512BW,-AVX2,-AVX,-AVX_Fast_Unaligned_Load,-ERMS,-FSRM
  rm -f "$out/callgrind.out"
  GLIBC_TUNABLES=glibc.cpu.hwcaps=$plain valgrind --tool=callgrind --combine-dumps=yes \
    --callgrind-out-file="$out/callgrind.out" --dump-after='bench::counts::mark' --toggle-collect='reserve_*' \
    --toggle-collect='same::door::same_*' --toggle-collect='bytewise_*' --toggle-collect='bench::pass::*' \
    "$program" calls >"$out/calls.txt" 2>"$out/callgrind.log" || { tail -n 20 "$out/callgrind.log" && return 1; }
}
