# Several results are correct: where the token is at the end depends on when a process asks for it.
# Reads the lines of `scripts/graph-to-dot --lines`, each after the word `host` or `result`.
$1 == "host" && $2 == "node" { processes++ }
$1 == "result" && $2 == "node" { left++; tokens += ($4 == "R") }
$1 == "result" && $2 == "node" && ($5 != "-" || $6 !~ /:0$/) { print $3 " is not done: " $6; wrong = 1 }
$1 == "result" && $2 == "edge" { edges++ }
END {
  if (left != processes || edges != processes) { print "the ring is another one"; wrong = 1 }
  if (tokens != 1) { print tokens " tokens, and not one"; wrong = 1 }
  exit wrong
}
