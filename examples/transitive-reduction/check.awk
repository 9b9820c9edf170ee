# Two results are correct if parallel edges have different labels. Works out again which edges may stay.
# Reads the lines of `scripts/graph-to-dot --lines`, each after the word `host` or `result`.
$2 == "node" { place[$1, $3] = ++nodes[$1]; label[$1, nodes[$1]] = $6 }
$1 == "result" && $2 == "node" && ($4 != "-" || $5 != "-") { print $3 " is a root or marked"; wrong = 1 }
$1 == "host" && $2 == "edge" { from = place[$1, $4]; to = place[$1, $5]; there[from, to, $7] = 1 }
$1 == "host" && $2 == "edge" && !((from, to) in wanted) { wanted[from, to] = 1; next_of[from, ++ways[from]] = to }
$1 == "result" && $2 == "edge" {
  from = place[$1, $4]; to = place[$1, $5]
  if (!((from, to, $7) in there) || $6 != "-") { print $3 " is no edge of the host"; wrong = 1 }
  if ((from, to) in kept) { print "two edges lead from " $4 " to " $5; wrong = 1 }
  kept[from, to] = 1
}
# Goes on from a node, as long as it was not seen from this first one, and strikes the edges to what is seen.
function search(first, node,   i, to) {
  for (i = 1; i <= ways[node]; i++) {
    to = next_of[node, i]
    if (node != first && (first, to) in wanted) delete wanted[first, to]
    if (seen[to] != first) { seen[to] = first; search(first, to) }
  }
}
END {
  for (i = 1; i <= nodes["host"]; i++) if (label["host", i] != label["result", i]) { print "node " i " has another label"; wrong = 1 }
  if (nodes["host"] != nodes["result"]) { print "the nodes are not those of the host"; wrong = 1 }
  for (i = 1; i <= nodes["host"]; i++) search(i, i)
  for (one in wanted) if (!(one in kept)) { split(one, end, SUBSEP); print "an edge from node " end[1] " to node " end[2] " is missing"; wrong = 1 }
  for (one in kept) if (!(one in wanted)) { split(one, end, SUBSEP); print "the edge from node " end[1] " to node " end[2] " is one too many"; wrong = 1 }
  exit wrong
}
