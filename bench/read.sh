#!/usr/bin/env bash
# Times READ of mmpa beside metamath-exe and a plain Rust program, where these and the databases are there.
# Usage: bench/read.sh [DATABASE ..]   over the program that `rt run` or `rt ci` has built. MEASURE names the measuring script.
set -u
cd "$(dirname "$0")/.." || exit 1
measure=${MEASURE:-../shared/bench/measure.py}
program=$PWD/crates/mmpa/out/mmpa
for need in "$measure" "$program"; do
  if [ ! -e "$need" ]; then
    echo "bench/read.sh: skipped, there is no $need"
    exit 0
  fi
done
if ! command -v python3 >/dev/null || ! command -v metamath >/dev/null; then
  echo "bench/read.sh: skipped, python3 or metamath-exe is missing"
  exit 0
fi
python3 "$measure" "$program" "$@"
