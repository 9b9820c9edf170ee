# Several results are correct: new nodes may be numbered in another order. Works out the types again.
# Reads the lines of `scripts/graph-to-dot --lines`, each after the word `host` or `result`.
$2 == "node" { n = place[$1, $3] = ++nodes[$1]; label[$1, n] = $6; mark[n] = $5; if ($4 == "R") { root[$1] = n; roots[$1]++ } }
$2 == "edge" {
  from = place[$1, $4]; to = place[$1, $5]
  if ($7 == "\"in\"") takes[$1, to] = from
  if ($7 == "\"out\"") gives[$1, from] = to
}
$1 == "host" && $2 == "edge" { part[from, $7] = to; wanted[from " " to " " $7]++ }
$1 == "result" && $2 == "edge" {
  if ($7 == "\"type\"") { types[from]++; type_of[from] = to }
  else if (!((from " " to " " $7) in wanted) && $7 != "\"in\"" && $7 != "\"out\"") { print "a new edge " $7 " from node " from; wrong = 1 }
  left[from " " to " " $7]++
  if ($6 != "-") dashed++
}
function shown(side, n) {
  if (label[side, n] != "\"->\"") return label[side, n]
  return "(" shown(side, takes[side, n]) " to " shown(side, gives[side, n]) ")"
}
# The type of an expression by the rules of the language, with what was found before in order; the first without one is kept.
function check(n,   kind, i, d, one, two, three) {
  kind = label["host", n]; sub(/:.*/, "", kind); gsub(/"/, "", kind)
  is_open[n] = 1
  for (i = 1; !fault && (n, i) in part; i++) check(part[n, i])
  is_open[n] = 0
  if (fault) return
  one = type[part[n, 1]]; two = type[part[n, 2]]; three = type[part[n, 3]]
  type[n] = kind == "number" ? "\"int\"" : kind == "truth" ? "\"bool\"" : \
    kind == "arithmetic" && one == "\"int\"" && two == "\"int\"" ? "\"int\"" : \
    kind == "comparison" && one == "\"int\"" && two == "\"int\"" ? "\"bool\"" : \
    kind == "logic" && one == "\"bool\"" && two == "\"bool\"" ? "\"bool\"" : \
    kind == "if" && one == "\"bool\"" && two == three ? two : kind == "let" ? two : ""
  if (kind == "fun") type[n] = "(" shown("host", part[n, "\"takes\""]) " to " one ")"
  if (kind == "call" && index(one, "(" two " to ") == 1) type[n] = substr(one, length(two) + 6, length(one) - length(two) - 6)
  if (kind == "use" && is_open[d = part[n, "\"of\""]])
    type[n] = label["host", d] ~ /^"fun"/ ? shown("host", part[d, "\"takes\""]) : type[part[d, 1]]
  if (type[n] == "") { fault = n; delete type[n] }
}
END {
  for (i = 1; i <= nodes["host"]; i++) if (label["host", i] != label["result", i]) { print "node " i " has another label"; wrong = 1 }
  for (one in wanted) if (left[one] != wanted[one]) { print "the edge " one " is another one"; wrong = 1 }
  type[""] = ""; check(root["host"]); delete type[""]
  for (i = 1; i <= nodes["result"]; i++) {
    if ((mark[i] == "red") != (i == fault)) { print "node " i " is " mark[i]; wrong = 1 }
    if ((mark[i] == "green") != (i in type && i != "")) { print "node " i " is " mark[i]; wrong = 1 }
    if (types[i] + 0 != (mark[i] == "green")) { print "node " i " has " types[i] + 0 " types"; wrong = 1 }
    else if (types[i] && shown("result", type_of[i]) != type[i]) { print "node " i " has the type " shown("result", type_of[i]) ", and not " type[i]; wrong = 1 }
    if (label["result", i] ~ /^"(int|bool|->)"$/ && once[shown("result", i)]++) { print "two nodes are one type"; wrong = 1 }
  }
  if (roots["result"] != 1 || root["result"] != (fault ? fault : root["host"])) { print "the root is another one"; wrong = 1 }
  if (!fault && dashed) { print "edges are dashed"; wrong = 1 }
  exit wrong
}
