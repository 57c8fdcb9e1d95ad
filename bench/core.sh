#!/usr/bin/env bash
# Times `hipsleek core` and `hipsleek run` on generated sources: bench/core.sh PROGRAM
# Prints a table of the job, its input's bytes, seconds and peak memory in MB.
set -eu
program=$(realpath "$1")
folder=$(mktemp -d)
trap 'rm -rf "$folder"' EXIT
cd "$folder"

methods() { # methods COUNT: so many methods, each of which calls the one before
  echo 'data node { int val; node next; }'
  echo 'method m0(node x, int v) : node requires emp ensures emp; { node y = new node(v, x); return y; }'
  for i in $(seq "$(($1 - 1))"); do
    printf 'method m%d(node x, int v) : node requires emp ensures emp; ' "$i"
    printf '{ node y = m%d(x, v + 1); if (y == null) { y = x; } else { y.next = x; int w = y.val; y.val = 2*w - v; } return y; }\n' $((i - 1))
  done
}

loop() { # loop: a method that calls itself for ever
  echo 'method f(int a) requires emp ensures emp; { f(a + 1); }'
}

turns() { # turns: a method that calls another for ever, and returns from it
  echo 'method g(int a) : int requires emp ensures emp; { return a + 1; }'
  echo 'method f(int a) requires emp ensures emp; { int b = g(a); b = g(b); b = g(b); b = g(b); b = g(b); b = g(b); b = g(b); f(b); }'
}

nodes() { # nodes: a method that makes nodes for ever
  echo 'data node { int val; node next; }'
  echo 'method f(node x) requires emp ensures emp; { node y = new node(1, x); f(y); }'
}

heap() { # heap COUNT ARGS: the arguments, and a list of so many nodes
  printf 'heap 1\nargs %s\n' "$2"
  for i in $(seq "$1"); do printf '%d node %d %d\n' "$i" $((i * 7)) $(((i + 1) % ($1 + 1))); done
}

measure() { # measure NAME BYTES-OF WORDS..: times the program on the words
  local name=$1 file=$2
  shift 2
  /usr/bin/env TIMEFORMAT=%R bash -c "time '$program' $* > out" 2> seconds || true
  peak=$( (command -v /usr/bin/time > /dev/null && /usr/bin/time -f %M "$program" "$@" 2>&1 > /dev/null | tail -n 1) || echo 0)
  printf '%-18s %9d %8s %8s\n' "$name" "$(stat -c %s "$file")" "$(cat seconds)" "$((peak / 1024))"
}

printf '%-18s %9s %8s %8s\n' job bytes seconds MB
for count in 64 256 1024; do methods $count > methods; measure methods-$count methods core methods; done
loop > loop; turns > turns; nodes > nodes
heap 0 0 > start
for steps in 10000 100000 1000000; do measure loop-$steps loop run loop f start --steps $steps; done
for steps in 10000 100000 1000000; do measure turns-$steps turns run turns f start --steps $steps; done
for steps in 10000 100000 1000000; do measure nodes-$steps nodes run nodes f start --steps $steps; done
for count in 1000 40000; do heap $count 1 > list; measure heap-$count list run nodes f list --steps 0; done
