#!/usr/bin/env bash
# Tries the further wrong bodies of crates: wrong.sh NAME..
# Each edit in crates/NAME/wrong/ must be refused, as those in must-fail/ are by the gate. They are tried in a copy of
# the repository, over what checks on this machine kept. The last line says how many were refused.
set -eu
top=$(cd "$(dirname "$0")" && pwd)
if [ $# -eq 0 ]; then
  echo 'usage: wrong.sh NAME..' >&2
  exit 2
fi
copy=$(mktemp -d)
trap 'rm -rf "$copy"' EXIT
tar -C "$top" --exclude='crates/*/out' -cf - crates crates.txt HANDLES | tar -C "$copy" -xf -
rm -f "$copy"/crates/*/must-fail/*.edit
for name in "$@"; do
  mkdir -p "$copy/crates/$name/must-fail"
  cp "$top/crates/$name/wrong/"*.edit "$copy/crates/$name/must-fail/"
done
cd "$copy"
rt must-fail "$@"
