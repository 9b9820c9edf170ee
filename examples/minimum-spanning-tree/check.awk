# Several results are correct: edges of the same weight may replace each other. The sum must be that of Kruskal's algorithm.
# Reads the lines of `scripts/graph-to-dot --lines`, each after the word `host` or `result`.
$2 == "node" { place[$1, $3] = nodes[$1]++; label[$1, nodes[$1]] = $6 }
$1 == "result" && $2 == "node" && ($4 != "-" || $5 != "-") { print $3 " is a root or marked"; wrong = 1 }
$2 == "edge" { edges[$1]++; same[place[$1, $4] " " place[$1, $5] " " $7] += $1 == "host" ? 1 : -1 }
$1 == "host" && $2 == "edge" { from[++count] = place[$1, $4]; to[count] = place[$1, $5]; weight[count] = $7; order[count] = count }
$1 == "result" && $2 == "edge" && $6 == "red" { red++; red_from[red] = place[$1, $4]; red_to[red] = place[$1, $5]; red_sum += $7 }
$1 == "result" && $2 == "edge" && $6 != "red" && $6 != "-" { print $3 " is " $6; wrong = 1 }
# The trees as chains of nodes, each to one nearer to the end that stands for its tree.
function tree(node) { while (up[node] != node) node = up[node] = up[up[node]]; return node }
function joins(a, b) { a = tree(a); b = tree(b); if (a == b) return 0; up[a] = b; return 1 }
function apart(   i) { for (i = 0; i < nodes["host"]; i++) up[i] = i }
function sort(   gap, i, j, one) {
  for (gap = 1; gap < count; gap = 3 * gap + 1);
  for (; gap >= 1; gap = int(gap / 3))
    for (i = gap + 1; i <= count; i++) {
      one = order[i]
      for (j = i; j > gap && weight[order[j - gap]] > weight[one]; j -= gap) order[j] = order[j - gap]
      order[j] = one
    }
}
END {
  for (i = 1; i <= nodes["host"]; i++) if (label["host", i] != label["result", i]) { print "node " i " has another label"; wrong = 1 }
  if (nodes["host"] != nodes["result"]) { print "the nodes are not those of the host"; wrong = 1 }
  for (one in same) if (same[one]) { print "the edges " one " are not those of the host"; wrong = 1 }
  apart(); sort()
  for (i = 1; i <= count; i++) if (joins(from[order[i]], to[order[i]])) { wanted++; wanted_sum += weight[order[i]] }
  apart()
  for (i = 1; i <= red; i++) if (!joins(red_from[i], red_to[i])) { print "a red edge closes a cycle"; wrong = 1 }
  if (red + 0 != wanted + 0) { print red + 0 " red edges, and not " wanted + 0; wrong = 1 }
  if (red_sum + 0 != wanted_sum + 0) { print "the red edges weigh " red_sum + 0 ", and not " wanted_sum + 0; wrong = 1 }
  exit wrong
}
