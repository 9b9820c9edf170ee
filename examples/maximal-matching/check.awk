# Several results are correct: which edges are taken depends on their order.
# Reads the lines of `scripts/graph-to-dot --lines`, each after the word `host` or `result`.
$1 == "host" && $2 == "edge" { edges_wanted++ }
$1 == "result" && $2 == "node" { is_grey[$3] = ($5 == "grey"); taken[$3] += 0 }
$1 == "result" && $2 == "edge" { from[++edges] = $4; to[edges] = $5; if ($6 == "red") { taken[$4]++; taken[$5]++ } }
END {
  if (edges != edges_wanted) { print "the edges are not those of the host"; wrong = 1 }
  for (node in taken) if (taken[node] > 1) { print node " has two edges of the matching"; wrong = 1 }
  for (node in taken) if (taken[node] != is_grey[node]) { print node " is marked wrongly"; wrong = 1 }
  for (i = 1; i <= edges; i++) if (!taken[from[i]] && !taken[to[i]]) { print "an edge at " from[i] " could be added"; wrong = 1 }
  exit wrong
}
