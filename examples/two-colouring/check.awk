# Several results are correct: the two colors may be swapped in each component of the graph.
# Reads the lines of `scripts/graph-to-dot --lines`, each after the word `host` or `result`.
$2 == "node" { label[$1, $3] = $6; if ($1 == "result") colour[$3] = $5; nodes[$1]++ }
$2 == "edge" { edges[$1] = edges[$1] " " $4 ">" $5; if ($1 == "result") { from[++count] = $4; to[count] = $5 } }
END {
  if (nodes["host"] != nodes["result"]) { print "the nodes are not those of the host"; wrong = 1 }
  for (node in colour) if (colour[node] != "red" && colour[node] != "blue") { print node " has no colour"; wrong = 1 }
  for (i = 1; i <= count; i++) if (colour[from[i]] == colour[to[i]]) { print from[i] " and " to[i] " have one colour"; wrong = 1 }
  exit wrong
}
