#!/usr/bin/env bash
# Times `hipsleek sleek` on generated sources of growing size: bench/sleek.sh PROGRAM
# Prints a table of the source, its bytes, seconds and peak memory in MB.
set -eu
program=$(realpath "$1")
folder=$(mktemp -d)
trap 'rm -rf "$folder"' EXIT
cd "$folder"

node='data node { int val; node next; }'

claims() { # claims COUNT: so many entailments of one atom
  echo "$node"
  for _ in $(seq "$1"); do echo 'entail x::node<a, p> |- x::node<b, q>;'; done
}

chain() { # chain COUNT: one entailment of a list of so many atoms
  echo "$node"
  printf 'entail x1::node<a1, x2>'
  for i in $(seq 2 "$1"); do printf ' * x%d::node<a%d, x%d>' "$i" "$i" $((i + 1)); done
  printf ' |- x1::node<b1, y2>'
  for i in $(seq 2 "$1"); do printf ' * y%d::node<b%d, y%d>' "$i" "$i" $((i + 1)); done
  echo ';'
}

equations() { # equations COUNT: one entailment of so many equations a side
  printf 'entail a0 = null'
  for i in $(seq "$1"); do printf ' & a%d = a%d' $((i % 900)) $(((i + 1) % 900)); done
  printf ' |- a0 = null'
  for i in $(seq "$1"); do printf ' & a%d = a%d' $(((i + 2) % 900)) $((i % 900)); done
  echo ';'
}

names() { # names COUNT: one entailment of so many free names; 1000 are allowed
  printf 'entail a0 = null'
  seq -s '' -f ' & a%.0f = null' "$1" | tr -d '\n'
  echo ' |- a0 = null;'
}

right() { # right COUNT: one entailment of 990 names on the left and of so many equations on the right
  printf 'entail a0 = null'
  seq -s '' -f ' & a%.0f = null' 989 | tr -d '\n'
  printf ' |- b = b'
  seq -s '' -f ' & b = %.0f' "$1"
  echo ';'
}

bound() { # bound COUNT: one entailment of so many binders
  printf 'entail exists b0'
  seq -s '' -f ', b%.0f' "$1" | tr -d '\n'
  echo '. emp |- emp;'
}

sum() { # sum COUNT: one sum of so many names, of 900
  printf 'entail a0'
  for i in $(seq "$1"); do printf ' + a%d' $((i % 900)); done
  echo ' = 0 |- emp;'
}

nodes() { # nodes COUNT: so many data types; 256 are allowed
  seq -f 'data d%.0f { int v; }' "$1"
}

locals() { # locals COUNT: a method of so many locals
  echo 'method m() requires emp ensures emp; {'
  seq -f 'int x%.0f = 0;' "$1"
  echo '}'
}

blanks() { # blanks BYTES: blanks and comments alone
  head -c "$1" < <(yes '  // nothing but a comment')
}

resolved() { # resolved COUNT: so many entailments of predicates, a quarter as many predicates, and a lemma
  echo "$node"
  for k in $(seq $(($1 / 4))); do
    echo "pred p$k<n, S> == self = null & n = 0 & S = {} or exists v, q, m, T." \
      "self::node<v, q> * q::p$k<m, T> & n = m + 1 & S = union(T, {v}) inv n >= 0;"
  done
  echo 'lemma l: self::p1<n, S> -> self::p1<n, S>;'
  side='emp'
  for i in $(seq 12); do side="x$i::PRED<n$i + 1, union(S$i, {a$i})> * $side"; done
  side=${side% * emp}
  for k in $(seq "$1"); do echo "entail $side |- $side;" | sed "s/PRED/p$((k % ($1 / 4) + 1))/g"; done
}

measure() { # measure NAME: times the program on the file NAME
  /usr/bin/env TIMEFORMAT=%R bash -c "time '$program' sleek '$1' > out" 2> seconds || true
  peak=$( (command -v /usr/bin/time > /dev/null && /usr/bin/time -f %M "$program" sleek "$1" 2>&1 > /dev/null | tail -n 1) || echo 0)
  printf '%-18s %9d %8s %8s\n' "$1" "$(stat -c %s "$1")" "$(cat seconds)" "$((peak / 1024))"
}

printf '%-18s %9s %8s %8s\n' source bytes seconds MB
for count in 64 256 1024; do claims $count > claims-$count; measure claims-$count; done
for count in 16 64; do chain $count > chain-$count; measure chain-$count; done
for count in 1000 10000 36000; do equations $count > equations-$count; measure equations-$count; done
for count in 8000 64000; do names $count > names-$count; measure names-$count; done
for count in 8000 80000; do right $count > right-$count; measure right-$count; done
for count in 10000 110000; do bound $count > bound-$count; measure bound-$count; done
for count in 10000 140000; do sum $count > sum-$count; measure sum-$count; done
for count in 4000 36000; do nodes $count > nodes-$count; measure nodes-$count; done
for count in 4000 50000; do locals $count > locals-$count; measure locals-$count; done
for bytes in 262144 1048576; do blanks $bytes > blanks-$bytes; measure blanks-$bytes; done
for count in 64 256 1024; do resolved $count > resolved-$count; measure resolved-$count; done
