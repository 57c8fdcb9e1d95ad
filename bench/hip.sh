#!/usr/bin/env bash
# Times `hipsleek hip`, `prove` and `check` on generated sources: bench/hip.sh PROGRAM [SECONDS]
# Prints a table of the job, the bytes of its source, or of its derivation for `check`, processor seconds, peak memory in MB
# and a summary: the accepted pairs and the milliseconds of each for `hip`, the claims for `prove`, the verdict and the
# seconds as a part of those of `prove` for `check`. A run is ended after SECONDS, or 300. The last line has the greatest
# such part among the derivations that took `prove` a tenth of a second or more; the aim is a third.
set -eu
program=$(realpath "$1")
limit=${2:-300}
folder=$(mktemp -d)
trap 'rm -rf "$folder"' EXIT
cd "$folder"

list='data node { int val; node next; }
pred ll<n> == self = null & n = 0 or exists v, q, m. self::node<v, q> * q::ll<m> & n = m + 1 inv n >= 0;'
bag='pred lb<S> == self = null & S = {} or exists v, q, T. self::node<v, q> * q::lb<T> & S = union(T, {v});'
push='method push(node x, int v) : node requires x::ll<n> ensures res::ll<n + 1>; { node y = new node(v, x); return y; }'

# ---- many methods

straight() { # straight COUNT: so many methods, each of which calls the one before and puts a node before the result
  echo "$list"
  echo 'method m1(node x) : node requires x::ll<n> ensures res::ll<n + 1>; { node z = new node(1, x); return z; }'
  for i in $(seq 2 "$1"); do
    printf 'method m%d(node x) : node requires x::ll<n> ensures res::ll<n + %d>; ' "$i" "$i"
    printf '{ node y = m%d(x); node z = new node(%d, y); return z; }\n' $((i - 1)) "$i"
  done
}

bags() { # bags COUNT: so many methods that put a node before a list with the bag of its values
  echo "$list"
  echo "$bag"
  for i in $(seq "$1"); do
    printf 'method b%d(node x) : node requires x::lb<S> ensures res::lb<union(S, {%d})>; ' "$i" "$i"
    printf '{ node z = new node(%d, x); return z; }\n' "$i"
  done
}

loops() { # loops COUNT: so many methods that call themselves: they append a list, count one, or count down, in turn
  echo "$list"
  for i in $(seq "$1"); do
    case $((i % 3)) in
      0)
        printf 'method f%d(node x, node y) requires x::ll<n> * y::ll<m> & x != null ensures x::ll<n + m>; ' "$i"
        printf '{ node t = x.next; if (t == null) { x.next = y; } else { f%d(t, y); } }\n' "$i"
        ;;
      1)
        printf 'method f%d(node x) : int requires x::ll<n> ensures x::ll<n> & res = n; ' "$i"
        printf '{ int k = 0; if (x != null) { node t = x.next; k = f%d(t); k = k + 1; } return k; }\n' "$i"
        ;;
      2)
        printf 'method f%d(int a) : int requires a >= 0 ensures res = a; ' "$i"
        printf '{ int k = 0; if (a > 0) { k = f%d(a - 1); k = k + 1; } return k; }\n' "$i"
        ;;
    esac
  done
}

# ---- long methods

calls() { # calls COUNT: a method that calls another so often in a row
  echo "$list"
  echo "$push"
  printf 'method many(node y0) : node requires y0::ll<n> ensures res::ll<n + %d>; {' "$1"
  for i in $(seq "$1"); do printf ' node y%d = push(y%d, %d);' "$i" $((i - 1)) "$i"; done
  printf ' return y%d; }\n' "$1"
}

made() { # made COUNT: a method that puts so many nodes before a list, which are folded at its end
  echo "$list"
  printf 'method many(node y0) : node requires y0::ll<n> ensures res::ll<n + %d>; {' "$1"
  for i in $(seq "$1"); do printf ' node y%d = new node(%d, y%d);' "$i" "$i" $((i - 1)); done
  printf ' return y%d; }\n' "$1"
}

# ---- many claims

claims() { # claims COUNT: so many entailments of lists, and half as many methods
  echo "$list"
  for i in $(seq $(($1 / 2))); do
    printf 'entail x::node<v, q> * q::ll<m> |- x::ll<n>;\n'
    printf 'entail x::ll<n> & n > %d |- x::node<a, q> * q::ll<m>;\n' "$i"
    printf 'method m%d(node x, int v) : node requires x::ll<n> ensures res::ll<n + 1>; ' "$i"
    printf '{ node y = new node(v, x); return y; }\n'
  done
}

# ---- measuring

seconds() { # seconds COMMAND ..: its processor seconds; its output is in the file out, its memory in peak
  local TIMEFORMAT='%U %S'
  echo 0 > peak
  set -- timeout "$limit" "$@"
  if [ -x /usr/bin/time ]; then set -- /usr/bin/time -q -f %M -o peak "$@"; fi
  { time "$@" > out 2> /dev/null; } 2> times || true
  awk '{ printf "%.3f", $1 + $2 }' times
}

row() { # row JOB FILE SECONDS SUMMARY
  printf '%-20s %9d %8s %6d  %s\n' "$1" "$(stat -c %s "$2")" "$3" "$(($(cat peak) / 1024))" "$4"
}

part() { # part A B DIGITS: A divided by B
  awk -v a="$1" -v b="$2" -v digits="$3" 'BEGIN { printf "%." digits "f", (b > 0 ? a / b : 0) }'
}

verified() { # verified NAME OPTIONS ..: times `hip` on the file NAME
  local took pairs
  took=$(seconds "$program" hip "$@")
  pairs=$(sed -n 's/^summary: preds .*, pairs .*\///p' out)
  row "hip $1" "$1" "$took" "$(sed -n 's/^summary: //p' out | grep . || echo ended), $(part "${took}e3" "${pairs:-0}" 2) ms each"
}

proved() { # proved NAME OPTIONS ..: times `prove` on the file NAME, and `check` on what it writes
  local took checked shown open
  took=$(seconds "$program" prove "$@")
  mv out "$1.proof"
  shown=$(grep -c '^claim ' "$1.proof" || true)
  open=$(grep -c '^# claim ' "$1.proof" || true)
  row "prove $1" "$1" "$took" "$(tail -n 1 "$1.proof" | grep -q '^end$' || echo 'ended, ')claims $shown/$((shown + open))"
  checked=$(seconds "$program" check "$1" "$1.proof")
  row "check $1" "$1.proof" "$checked" "$(grep . out || echo ended), $(part "$checked" "$took" 2) of prove"
  awk -v a="$checked" -v b="$took" -v name="$1" 'BEGIN { if (b >= 0.1) printf "%.2f %s\n", a / b, name }' >> parts
  rm "$1.proof"
}

printf '%-20s %9s %8s %6s  %s\n' job bytes seconds MB summary
: > parts
for count in 64 256 1024; do
  for kind in straight bags loops; do
    $kind $count > $kind-$count
    verified $kind-$count
    proved $kind-$count
  done
done
for count in 16 64 128; do calls $count > calls-$count; verified calls-$count; proved calls-$count; done
for count in 4 8 16; do made $count > made-$count; verified made-$count --rank 64; proved made-$count --rank 64; done
for count in 64 256 1024; do claims $count > claims-$count; proved claims-$count; done
sort -n parts | tail -n 1 | sed 's/^\([^ ]*\) \(.*\)$/the greatest part of check in prove: \1, of \2/'
