# Checks that the result is a search tree of exactly the numbers that were not to be deleted.
# Reads the lines of `scripts/graph-to-dot --lines`, each after the word `host` or `result`.
$1 == "host" && $2 == "node" && $5 == "blue" { waiting = $6 == "empty" ? 0 : split($6, wait, ":") }
$1 == "host" && $2 == "node" && $4 == "-" { wanted[$6] = 1 }
$1 == "result" && $2 == "node" && $4 == "R" { if ($5 == "green") tree = $3; else { list = $6; lists++ }; roots++ }
$1 == "result" && $2 == "node" && $4 == "-" { number[$3] = $6; nodes++; if ($5 != "-") { print $3 " is marked"; wrong = 1 } }
$1 == "result" && $2 == "edge" && $7 != "\"top\"" {
  if (($4, $7) in child || $7 != "\"left\"" && $7 != "\"right\"" || $6 != "-") { print $4 " has an odd edge " $7; wrong = 1 }
  child[$4, $7] = $5
}
$1 == "result" && $2 == "edge" && $7 == "\"top\"" { if ($4 != tree || tops++) { print "an odd edge to the top"; wrong = 1 }; top = $5 }
$1 == "result" && $2 == "edge" { edges++ }
# Goes through the tree from the least number to the greatest.
function walk(node) {
  if (node in seen || !(node in number)) { print "an edge leads to " node; wrong = 1; return }
  seen[node] = 1
  if ((node, "\"left\"") in child) walk(child[node, "\"left\""])
  if (count++ && number[node] + 0 <= last) { print last " stands before " number[node]; wrong = 1 }
  last = number[node] + 0
  if (!(number[node] in wanted)) { print number[node] " is there"; wrong = 1 }
  delete wanted[number[node]]
  if ((node, "\"right\"") in child) walk(child[node, "\"right\""])
}
END {
  if (roots != 2 || lists != 1 || list != "empty") { print "the roots are others, or numbers wait still"; wrong = 1 }
  for (i = 1; i <= waiting; i++) delete wanted[wait[i]]
  if (tops) walk(top)
  for (key in wanted) { print key " is missing"; wrong = 1 }
  if (count != nodes || edges != nodes) { print nodes " nodes and " edges " edges, of which " count + 0 " nodes are in the tree"; wrong = 1 }
  exit wrong
}
