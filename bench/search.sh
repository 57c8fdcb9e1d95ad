#!/usr/bin/env bash
# Times the search of `hipsleek sleek` on lists and on long paths: bench/search.sh PROGRAM [SECONDS [long]]
# Prints a table of the source, the goals that the search looks at, seconds, peak memory in MB and the first verdict. The
# goals are found by halving: the least limit with which the verdict is the same. A run is ended after SECONDS, or 60.
# With `long` it times the longest path alone, whose goals are 902 N + 1, and which takes 12 GB.
set -eu
program=$(realpath "$1")
limit=${2:-60}
folder=$(mktemp -d)
trap 'rm -rf "$folder"' EXIT
cd "$folder"

list='data node { int val; node next; }
pred ll<n> == self = null & n = 0 or exists v, q, m. self::node<v, q> * q::ll<m> & n = m + 1 inv n >= 0;'

atoms() { # atoms COUNT: a list of so many nodes
  printf 'x1::node<a1, x2>'
  for i in $(seq 2 "$1"); do printf ' * x%d::node<a%d, x%d>' "$i" "$i" $((i + 1)); done
}

folded() { # folded COUNT: a list of so many nodes, ended by null, is a list
  printf '%s\nentail ' "$list"
  atoms "$1"
  printf ' & x%d = null |- x1::ll<n>;\n' $(($1 + 1))
}

segment() { # segment COUNT: a list of so many nodes before a list is a list
  printf '%s\nentail ' "$list"
  atoms "$1"
  printf ' * x%d::ll<m> |- x1::ll<n>;\n' $(($1 + 1))
}

path() { # path COUNT: a predicate that binds so many variables besides, folded at each of three nodes
  printf 'data node { int val; node next; }\npred p<> == exists v, q'
  for i in $(seq "$1"); do printf ', a%d' "$i"; done
  printf '. self::node<v, q> * q::p<>'
  for i in $(seq "$1"); do printf ' & a%d = %d' "$i" "$i"; done
  printf ';\nentail '
  atoms 3
  printf ' |- x1::p<>;\n'
}

long() { # long COUNT: a predicate without nodes that binds 900 variables, folded so often
  printf 'pred e<> == exists a1'
  for i in $(seq 2 900); do printf ', a%d' "$i"; done
  printf '. self = null'
  for i in $(seq 900); do printf ' & a%d = %d' "$i" "$i"; done
  printf '; data node { int val; node next; } entail x = null & y = null |- x::e<>'
  for _ in $(seq 2 "$1"); do printf ' * x::e<>'; done
  printf ' * y::node<c, z>;\n'
}

verdict() { # verdict FILE OPTIONS: the line of the first entailment, or what ended the run
  timeout "$limit" "$program" sleek "$@" | grep -m 1 '^entail' || echo "ended"
}

goals() { # goals FILE: the least limit with which the verdict is the same
  local low=1 high=20000 middle all
  all=$(verdict "$1" --rank 64)
  while [ $low -lt $high ]; do
    middle=$(((low + high) / 2))
    if [ "$(verdict "$1" --rank 64 --goals $middle)" = "$all" ]; then high=$middle; else low=$((middle + 1)); fi
  done
  echo "$low"
}

measure() { # measure NAME: times the program on the file NAME
  /usr/bin/env TIMEFORMAT=%R bash -c "time timeout $limit '$program' sleek '$1' --rank 64 > out" 2> seconds || true
  peak=$( (command -v /usr/bin/time > /dev/null && /usr/bin/time -f %M timeout "$limit" "$program" sleek "$1" --rank 64 2>&1 > /dev/null | tail -n 1) || echo 0)
  printf '%-14s %7s %8s %6s  %s\n' "$1" "$(goals "$1")" "$(tail -n 1 seconds)" "$((peak / 1024))" "$(grep -m 1 '^entail' out | cut -c 1-60 || echo ended)"
}

if [ "${3:-}" = long ]; then
  for count in 1 6 12; do
    long $count > long-$count
    echo "long-$count"
    time timeout "$limit" "$program" sleek long-$count || true
  done
  exit 0
fi

printf '%-14s %7s %8s %6s  %s\n' source goals seconds MB verdict
for count in 1 2 3 4 8 64; do folded $count > folded-$count; measure folded-$count; done
for count in 1 2 3 8 63; do segment $count > segment-$count; measure segment-$count; done
for count in 10 100 898; do path $count > path-$count; measure path-$count; done
