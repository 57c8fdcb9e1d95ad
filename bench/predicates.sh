#!/usr/bin/env bash
# Times calls on predicates: bench/predicates.sh PROGRAM, the built program of crates/hs_tests_rows_preds.
# Prints a table of the rows, seconds and peak memory in MB. Output of a run goes to a file that is thrown away.
set -eu
program=$(realpath "$1")
folder=$(mktemp -d)
trap 'rm -rf "$folder"' EXIT
cd "$folder"

list() { # list NAME: a predicate of lists
  printf 'pred %s<n> == self = null & n = 0 or exists v, q, m. self::node<v, q> * q::%s<m> & n = m + 1 inv n >= 0; ' "$1" "$1"
}

founded() { # founded COUNT: 256 predicates, and the question whether they are founded so many times
  printf 'data node { int val; node next; } '
  for k in $(seq 256); do list "p$k"; done
  echo
  for _ in $(seq "$1"); do echo founded; done
}

cases() { # cases LEVEL ATOMS: so many atoms of a predicate of 16 cases of two atoms, at this level
  printf 'data node { int val; node next; } pred t<n> == self = null & n = 0'
  for k in $(seq 15); do printf ' or exists v, q, m. self::node<v, q> * q::t<m> & n = m + %d' "$k"; done
  echo ' inv n >= 0;'
  printf 'xpure %d 3 v1::t<v2>' "$1"
  for _ in $(seq 2 "$2"); do printf ' * v1::t<v2>'; done
  echo
}

measure() { # measure NAME: times the program on the rows of the file NAME
  cp "$1" rows
  /usr/bin/env TIMEFORMAT=%R bash -c "time '$program' > out" 2> seconds || true
  peak=$( (command -v /usr/bin/time > /dev/null && /usr/bin/time -f %M "$program" 2>&1 > /dev/null | tail -n 1) || echo 0)
  printf '%-18s %9d %10d %8s %8s\n' "$1" "$(stat -c %s "$1")" "$(stat -c %s out)" "$(tail -n 1 seconds)" "$((peak / 1024))"
}

printf '%-18s %9s %10s %8s %8s\n' rows bytes answer seconds MB
for count in 0 1000; do founded $count > founded-$count; measure founded-$count; done
cases 0 64 > level-0; measure level-0
cases 1 64 > level-1; measure level-1
cases 2 4 > level-2; measure level-2
