# Checks that the chart of the resulting program, drawn again, is the host. The texts in a host tell its boxes apart.
# Reads the lines of `scripts/graph-to-dot --lines`, each after the word `host` or `result`.
$1 == "host" && $2 == "node" { text[$3] = $6; if (used[$6]++) { print "two boxes " $6; wrong = 1 } }
$1 == "host" && $2 == "edge" { wanted[text[$4] " " $7 " " text[$5]]++; wanted_edges++ }
$1 == "result" && $2 == "node" { nodes++; words = split(substr($6, 2, length($6) - 2), word, "\":\""); if ($4 != "-" || $5 != "-") { print "a root, or marked"; wrong = 1 } }
$1 == "result" && $2 == "edge" { print "an edge is left"; wrong = 1 }
# The program as a tree: what stands in a block, up to a word that ends one.
function block(   id, item) {
  id = ++blocks
  while (at <= words && word[at] !~ /^(end|yes|no|test)$/) { item = one(); part[id, ++parts[id]] = item }
  if (!parts[id]) { print "an empty part before word " at; wrong = 1 }
  return id
}
function want(what) { if (word[at] != what) { print "no " what " is word " at; wrong = 1; exit }; at++ }
function one(   id) {
  id = ++items; kind[id] = word[at++]
  if (kind[id] == "repeat") { body[id] = block(); want("test"); test[id] = word[at++]; answer[id] = word[at++]; want("end") }
  else if (kind[id] == "if" || kind[id] == "while") {
    test[id] = word[at++]; answer[id] = word[at++]; body[id] = block()
    if (kind[id] == "if" && word[at] == other(answer[id])) { at++; second[id] = block() }
    want("end")
  }
  return id
}
function other(a) { return a == "yes" ? "no" : "yes" }
# The edges of the chart: of a block, and of one part, before the box `after`; their first box.
function edge(from, label, to) { drawn[from " " label " " to]++; drawn_edges++ }
function draw_block(id, after,   i) { for (i = parts[id]; i >= 1; i--) after = draw(part[id, i], after); return after }
function draw(id, after,   box, first) {
  box = "\"if\":\"" test[id] "\""
  if (kind[id] == "repeat" || kind[id] == "while") {
    first = draw_block(body[id], box)
    edge(box, "\"" answer[id] "\"", first); edge(box, "\"" other(answer[id]) "\"", after)
    return kind[id] == "while" ? box : first
  }
  if (kind[id] == "if") {
    edge(box, "\"" answer[id] "\"", draw_block(body[id], after))
    edge(box, "\"" other(answer[id]) "\"", id in second ? draw_block(second[id], after) : after)
    return box
  }
  box = "\"do\":\"" kind[id] "\""
  edge(box, "empty", after)
  return box
}
END {
  if (wrong) exit 1
  if (nodes != 1) { print nodes + 0 " nodes, and not one"; exit 1 }
  at = 1
  edge("\"start\"", "empty", draw_block(block(), "\"stop\""))
  if (at != words + 1) { print "the program ends before word " at; wrong = 1 }
  for (e in wanted) if (drawn[e] != wanted[e]) { print "the program has no edge " e; wrong = 1 }
  if (drawn_edges != wanted_edges) { print drawn_edges " edges, and not " wanted_edges; wrong = 1 }
  exit wrong
}
