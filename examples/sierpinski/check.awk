# Several results are correct: nodes may be created, and so numbered, in another order. Counts nodes, edges, and degrees.
# Reads the lines of `scripts/graph-to-dot --lines`, each after the word `host` or `result`.
$1 == "host" && $2 == "node" { generation = $6 }
$1 == "result" && $2 == "node" { nodes++; ends[$3] += 0; if ($4 != "-" || $5 != "-") { print $3 " is a root or marked"; wrong = 1 } }
$1 == "result" && $2 == "edge" { edges++; ends[$4]++; ends[$5]++; of_kind[$7]++; if ($6 != "-") { print $3 " is marked"; wrong = 1 } }
END {
  triangles = 1
  for (i = 0; i < generation; i++) triangles *= 3
  if (edges != 3 * triangles) { print edges " edges, and not " 3 * triangles; wrong = 1 }
  if (nodes != (3 * triangles + 3) / 2) { print nodes " nodes, and not " (3 * triangles + 3) / 2; wrong = 1 }
  for (kind = 0; kind < 3; kind++) if (of_kind[kind] != triangles) { print "not " triangles " edges " kind; wrong = 1 }
  for (node in ends) { if (ends[node] == 2) corners++; else if (ends[node] != 4) { print node " has " ends[node] " ends"; wrong = 1 } }
  if (corners != 3) { print "there are not three corners"; wrong = 1 }
  exit wrong
}
