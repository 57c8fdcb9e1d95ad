#!/usr/bin/env bash
# Times the decision of questions: bench/decide.sh PROGRAM, the built program of crates/hs_tests_rows_decide.
# Prints a table of the file, its questions, the processor seconds of a run and of one that only reads them, the
# milliseconds of a question with its reading, peak memory in MB, and how many answers are yes, no and neither. Where z3 is
# on the PATH it is asked the same questions of numbers in one process: its seconds, and how often a yes or no differs.
set -eu
program=$(realpath "$1")
folder=$(mktemp -d)
trap 'rm -rf "$folder"' EXIT
cd "$folder"
atoms=200000

# ---- questions of growing size

chain() { # chain COUNT LEFT RIGHT: so many equations, v1 = v2 + 1 and so on, between these sides
  printf 'implies %d %s' $atoms "$2"
  for i in $(seq "$1"); do printf 'v%d = v%d + 1 & ' "$i" $((i + 1)); done | sed 's/ & $//'
  printf ' |- %s\n' "$3"
}

path() { # path COUNT BOUND: differences from v1 to the last variable, each at most 2
  printf 'implies %d v1 <= v2 + 2' $atoms
  for i in $(seq 2 "$1"); do printf ' & v%d <= v%d + 2' "$i" $((i + 1)); done
  printf ' |- v1 <= v%d + %d\n' $(($1 + 1)) "$2"
}

graph() { # graph NODES EDGES LESS: differences at random, with a solution; the goal is the least bound, less so much
  awk -v nodes="$1" -v edges="$2" -v less="$3" -v atoms=$atoms '
    function draw(n) { seed = (seed * 16807) % 2147483647; return int(seed / 65536) % n }
    function bound(n) { return n < 0 ? " - " (-n) : " + " n }
    BEGIN {
      seed = 20; left = ""
      for (i = 1; i <= nodes; i++) { level[i] = draw(100); far[i] = i == 1 ? 0 : 1000000 }
      for (e = 1; e <= edges; e++) {
        from[e] = e < nodes ? e : draw(nodes) + 1; to[e] = e < nodes ? e + 1 : draw(nodes) + 1
        long[e] = level[from[e]] - level[to[e]] + draw(20)
        left = left (e > 1 ? " & " : "") "v" from[e] " <= v" to[e] bound(long[e])
      }
      for (i = 1; i <= nodes; i++) for (e = 1; e <= edges; e++)
        if (far[from[e]] + long[e] < far[to[e]]) far[to[e]] = far[from[e]] + long[e]
      print "implies " atoms " " left " |- v1 <= v" nodes bound(far[nodes] - less)
    }'
}

random() { # random COUNT GREATEST: small questions at random, some with disjunctions; coefficients are at most GREATEST
  awk -v count="$1" -v greatest="$2" -v atoms=$atoms '
    function draw(n) { seed = (seed * 16807) % 2147483647; return int(seed / 65536) % n }
    function term(  k) { k = draw(greatest) + 1; return (k > 1 ? k "*" : "") "v" (draw(variables) + 1) }
    function compared(n,  op) { op = draw(8); return (op < 3 ? " <= " : op < 5 ? " < " : op < 7 ? " = " : " != ") n }
    function comparison() { return term() (draw(2) ? " + " : " - ") term() compared(draw(11) - 5) }
    function item() { return draw(4) ? comparison() : "(" comparison() " | " comparison() ")" }
    BEGIN {
      seed = 7
      for (k = 1; k <= count; k++) {
        variables = draw(3) + 3; left = item()
        for (i = draw(4) + 2; i > 0; i--) left = left " & " item()
        print "implies " atoms " " left " |- " item()
      }
    }'
}

# ---- what the search asks in four entailments

# An instance of the list of numbers, or of the sorted list, at level 1: its address differs from one that is given.
ll() { # ll ROOT SIZE FIRST: its body, with new numbers from FIRST on
  echo "0 <= v$2 & ((v$1 = 0 & v$2 = 0) | (v$(($3 + 3)) = v$1 & 0 < v$1 & 0 <= v$(($3 + 2)) & v$2 = v$(($3 + 2)) + 1))"
}

sl() { # sl ROOT BAG FIRST
  echo "true & ((v$1 = 0 & V$2 = {}) | (v$(($3 + 4)) = v$1 & 0 < v$1 & true & V$2 = union(V$(($3 + 2)), {v$3})" \
    "& all v$(($3 + 3)) in V$(($3 + 2)): (v$3 <= v$(($3 + 3)))))"
}

apart() { # apart A B: these addresses
  echo "(v$1 = 0 | v$2 = 0 | v$1 != v$2)"
}

before_ll() { # before_ll ROOT NEXT SIZE FIRST: a node and then a list
  echo "v$4 = v$1 & 0 < v$1 & $(ll "$2" "$3" $(($4 + 1))) & $(apart "$4" $(($4 + 4)))"
}

before_sl() { # before_sl ROOT NEXT BAG FIRST
  echo "v$4 = v$1 & 0 < v$1 & $(sl "$2" "$3" $(($4 + 1))) & $(apart "$4" $(($4 + 5)))"
}

invariant='((v1 = 0 & v2 = 0) | (v6 = v1 & 0 < v1 & 0 <= v5 & v2 = v5 + 1)) |- 0 <= v2'

unfolded() { # entail x::ll<n> & n > 0 |- x::node<a, q> * q::ll<m>;
  local known='0 < v2 & v2 = v11 + 1'
  echo "$invariant"
  echo "$(ll 1 2 6) & 0 < v2 |- false"
  echo '0 < v2 & v1 = 0 & v2 = 0 |- false'
  echo "$(before_ll 1 10 11 12) & $known |- false"
  echo "$(before_ll 1 10 11 12) & $known & v3 = v9 & v4 = v10 & v5 = v11 |- true"
  echo "$(before_ll 1 10 11 15) & $known & v3 = v9 & v4 = v10 & v5 = 0 |- v4 = 0"
}

folded() { # entail x::node<v, q> * q::ll<m> |- x::ll<n>;
  echo "$invariant"
  echo "$(before_ll 1 3 4 6) |- false"
  echo "$(before_ll 1 3 4 9) & v5 = 0 |- v1 = 0"
  echo "$(before_ll 1 3 4 12) & v9 = v2 & v10 = v3 & v11 = v4 & v5 = v11 + 1 |- true"
  echo "$(before_ll 1 3 4 15) & v9 = v2 & v10 = v3 & v11 = 0 & v5 = v11 + 1 |- v10 = 0"
}

shared() { # entail x::ll<n> * y::ll<m> & x = y |- x = null;
  local known
  known="$(ll 1 2 5) & $(ll 3 4 9) & $(apart 8 12) & v1 = v3"
  echo "$invariant"
  echo "$known |- false"
  echo "$known |- v1 = 0"
}

sorted() { # entail x::node<v, q> * q::sl<T> & all u in T: (v <= u) |- x::sl<S>;
  local known='all v5 in V4: (v2 <= v5)' least='all v10 in V13: (v11 <= v10)' same='v11 = v2 & v12 = v3'
  echo '((v1 = 0 & V2 = {}) | (v7 = v1 & 0 < v1 & true & V2 = union(V5, {v3}) & all v6 in V5: (v3 <= v6))) |- true'
  echo "$(before_sl 1 3 4 7) & $known |- false"
  echo "$(before_sl 1 3 4 11) & $known & V6 = {} |- v1 = 0"
  echo "$(before_sl 1 3 4 14) & $known & $same & V13 = V4 & V6 = union(V13, {v11}) |- $least"
  echo "$(before_sl 1 3 4 18) & $known & $same & V13 = {} & V6 = union(V13, {v11}) |- $least & v12 = 0"
}

# ---- the same questions for z3

smt() { # smt FILE: its questions of numbers; unsat is yes
  awk '
    function split_up(text) {
      count = 0; at = 1
      while (match(text, /^ *(<=|!=|[-+*<=&|()!]|v[0-9]+|[0-9]+|true|false)/)) {
        tokens[++count] = substr(text, 1, RLENGTH); gsub(/ /, "", tokens[count]); text = substr(text, RLENGTH + 1)
      }
      tokens[count + 1] = ""
    }
    function term(  t) {
      if (tokens[at] == "-") { at++; return "(- " term() ")" }
      t = tokens[at++]
      if (tokens[at] == "*") { at++; return "(* " t " " tokens[at++] ")" }
      return t
    }
    function sum(  s, op) {
      s = term()
      while (tokens[at] == "+" || tokens[at] == "-") { op = tokens[at++]; s = "(" op " " s " " term() ")" }
      return s
    }
    function item(  f, op) {
      f = tokens[at]
      if (f == "true" || f == "false") { at++; return f }
      if (f == "!") { at++; return "(not " item() ")" }
      if (f == "(") { at++; f = formula(); at++; return f }
      f = sum(); op = tokens[at++]
      return op == "!=" ? "(not (= " f " " sum() "))" : "(" op " " f " " sum() ")"
    }
    function formula(  f, op) {
      f = item(); op = tokens[at]
      while (tokens[at] == "&" || tokens[at] == "|") { at++; f = f " " item() }
      return op == "&" ? "(and " f ")" : op == "|" ? "(or " f ")" : f
    }
    function made(text) { split_up(text); return formula() }
    BEGIN { for (i = 1; i <= 1001; i++) print "(declare-const v" i " Int)" }
    {
      sub(/^implies [0-9]* /, ""); mark = index($0, " |- ")
      print "(push) (assert " made(substr($0, 1, mark)) ") (assert (not " made(substr($0, mark + 4)) ")) (check-sat) (pop)"
    }' "$1"
}

# ---- measuring

seconds() { # seconds COMMAND ..: its processor seconds; its output is in the file out, its memory in peak
  local TIMEFORMAT='%U %S'
  echo 0 > peak
  if [ -x /usr/bin/time ]; then set -- /usr/bin/time -q -f %M -o peak "$@"; fi
  { time "$@" > out 2> /dev/null; } 2> times || true
  awk '{ printf "%.3f", $1 + $2 }' times
}

z3_columns() { # z3_columns FILE ANSWERS: its seconds and how many answers differ, where there is a yes or no
  if ! command -v z3 > /dev/null || grep -q 'V[0-9]' "$1"; then printf '%8s %6s' - -; return; fi
  smt "$1" > asked.smt2
  printf '%8s' "$(seconds z3 asked.smt2)"
  sed 's/^unsat$/yes/; s/^sat$/no/' out | paste "$2" - | awk '/^(yes|no)/ && $1 != $2 { n++ } END { printf " %6d", n }'
}

measure() { # measure NAME: times the program on the questions of the file NAME
  local count reading took memory
  count=$(wc -l < "$1")
  sed 's/ |- .*/ |- v2147483648 = 0/' "$1" > rows
  reading=$(seconds "$program")
  cp "$1" rows
  took=$(seconds "$program")
  memory=$(($(cat peak) / 1024))
  awk '/^  / { print $1 }' out > answers
  printf '%-16s %9d %8s %8s %9s %4d %5d %5d %7d %s\n' "$1" "$count" "$took" "$reading" \
    "$(awk -v s="$took" -v n="$count" 'BEGIN { printf "%.3f", s * 1000 / n }')" "$memory" "$(grep -c '^yes$' answers || true)" \
    "$(grep -c '^no$' answers || true)" "$(grep -vc '^yes$\|^no$' answers || true)" "$(z3_columns "$1" answers)"
}

each() { # each NAME COUNT: the questions that come in, each in a file of its own, so often
  local k=0 question
  while read -r question; do
    k=$((k + 1))
    for _ in $(seq "$2"); do echo "implies $atoms $question"; done > "$1-$k"
    measure "$1-$k"
  done
}

printf '%-16s %9s %8s %8s %9s %4s %5s %5s %7s %8s %6s\n' file questions seconds reading 'ms each' MB yes no neither z3 differ
for count in 250 500 1000; do
  chain $count '' "v1 = v$((count + 1)) + $count" > unit-$count-yes; measure unit-$count-yes
  chain $count '' "v1 = v$((count + 1)) + $((count - 1))" > unit-$count-no; measure unit-$count-no
done
for count in 250 500 1000; do
  chain $count '0 <= v1 & ' "0 <= v$((count + 1)) + $count" > chain-$count-yes; measure chain-$count-yes
  chain $count '0 <= v1 & ' "0 < v$((count + 1)) + $count" > chain-$count-no; measure chain-$count-no
done
path 200 400 > path-yes; measure path-yes
path 200 399 > path-no; measure path-no
for nodes in 10 20 40; do
  graph $nodes 200 0 > graph-$nodes-yes; measure graph-$nodes-yes
  graph $nodes 200 1 > graph-$nodes-no; measure graph-$nodes-no
done
unfolded | each unfolded 1000
folded | each folded 1000
shared | each shared 1000
sorted | each sorted 1000
random 1000 1 > random-1; measure random-1
random 1000 3 > random-3; measure random-3
