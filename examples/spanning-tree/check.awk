# Several results are correct: the search may take the edges of a node in any order.
# Reads the lines of `scripts/graph-to-dot --lines`, each after the word `host` or `result`.
$1 == "host" && $2 == "edge" { edges_wanted++ }
$1 == "result" && $2 == "node" { is_grey[$3] = ($5 == "grey"); grey += is_grey[$3]; if ($4 == "R") { reached[$3] = 1; roots++ } }
$1 == "result" && $2 == "edge" { from[++edges] = $4; to[edges] = $5; is_red[edges] = ($6 == "red"); red += is_red[edges] }
END {
  if (roots != 1) { print "there is not just one root"; wrong = 1 }
  if (edges != edges_wanted) { print "the edges are not those of the host"; wrong = 1 }
  if (red != grey - 1) { print red " red edges do not make a tree of " grey " nodes"; wrong = 1 }
  for (grows = 1; grows; ) {
    grows = 0
    for (i = 1; i <= edges; i++)
      if (is_red[i] && (from[i] in reached) != (to[i] in reached)) { reached[from[i]] = reached[to[i]] = 1; grows = 1 }
  }
  for (node in is_grey) if (is_grey[node] != (node in reached)) { print "the red edges miss " node; wrong = 1 }
  for (i = 1; i <= edges; i++)
    if (is_grey[from[i]] != is_grey[to[i]]) { print "the search stopped between " from[i] " and " to[i]; wrong = 1 }
  exit wrong
}
