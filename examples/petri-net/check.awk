# Several results are correct: which transition fires is left open. The tokens must follow from the numbers of firings.
# The net must be dead, or have fired as often as it may.
# Reads the lines of `scripts/graph-to-dot --lines`, each after the word `host` or `result`.
$2 == "node" { place[$1, $3] = ++nodes[$1]; label[$1, nodes[$1]] = $6 }
$1 == "host" && $2 == "node" && $4 == "R" { limit = $6 }
$1 == "result" && $2 == "node" && $4 == "R" { left = $6; roots++; if ($5 != "-") { print "the root is marked"; wrong = 1 } }
$1 == "result" && $2 == "node" && $4 != "R" && ($5 == "grey") != (label["host", nodes["result"]] !~ /":-?[0-9]+$/) { print $3 " has a mark that is not right"; wrong = 1 }
$2 == "edge" { same[place[$1, $4] " " place[$1, $5] " " $7] += $1 == "host" ? 1 : -1 }
$1 == "host" && $2 == "edge" { from[++arcs] = place[$1, $4]; to[arcs] = place[$1, $5]; batch[arcs] = $7 }
$1 == "result" && $2 == "edge" && $6 != "-" { print $3 " is marked"; wrong = 1 }
# What stands behind the last `:`, and before it.
function number(text) { match(text, /:-?[0-9]+$/); return substr(text, RSTART + 1) + 0 }
function name(text) { match(text, /:-?[0-9]+$/); return substr(text, 1, RSTART - 1) }
END {
  if (nodes["host"] != nodes["result"] || roots != 1) { print "the nodes are not those of the host"; exit 1 }
  for (one in same) if (same[one]) { print "the arcs " one " are not those of the host"; wrong = 1 }
  for (i = 1; i <= nodes["host"]; i++) {
    was = label["host", i]; is = label["result", i]
    if (was == limit) continue
    is_place[i] = was ~ /":-?[0-9]+$/
    if (name(is) != (is_place[i] ? name(was) : was)) { print was " became " is; wrong = 1 }
    tokens[i] = is_place[i] ? number(was) : 0
    now[i] = number(is)
    if (now[i] < 0) { print is " is below 0"; wrong = 1 }
    if (!is_place[i]) fired += now[i]
  }
  if (fired + left != limit) { print fired + 0 " firings and " left " left are not " limit; wrong = 1 }
  for (a = 1; a <= arcs; a++) {
    if (is_place[from[a]]) { tokens[from[a]] -= batch[a] * now[to[a]]; if (now[from[a]] < batch[a]) stuck[to[a]] = 1 }
    else tokens[to[a]] += batch[a] * now[from[a]]
  }
  for (i in is_place) {
    if (is_place[i] && tokens[i] != now[i]) { print label["result", i] ", where " tokens[i] " are wanted"; wrong = 1 }
    if (left > 0 && !is_place[i] && !stuck[i]) { print label["result", i] " can still fire"; wrong = 1 }
  }
  exit wrong
}
