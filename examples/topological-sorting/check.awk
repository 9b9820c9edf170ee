# Several results are correct: nodes without a path between them may be in either order.
# Reads the lines of `scripts/graph-to-dot --lines`, each after the word `host` or `result`.
$1 == "host" && $2 == "node" { wanted++ }
$1 == "host" && $2 == "edge" { edges_wanted++ }
$1 == "result" && $2 == "node" { split($6, part, ":"); number[$3] = part[1]; if ($5 == "grey") seen[part[1]]++ }
$1 == "result" && $2 == "edge" { from[++edges] = $4; to[edges] = $5; if ($6 != "-") { print $3 " is still marked"; wrong = 1 } }
END {
  for (i = 0; i < wanted; i++) if (seen[i] != 1) { print "not just one node has the number " i; wrong = 1 }
  if (edges != edges_wanted) { print "the edges are not those of the host"; wrong = 1 }
  for (i = 1; i <= edges; i++)
    if (number[from[i]] >= number[to[i]]) { print "an edge leads from " number[from[i]] " to " number[to[i]]; wrong = 1 }
  exit wrong
}
