# Reads a graph from tokens: a host, a printed result, or a side of a rule. What is read stands in
#   node_count, node[i], root[i], mark[i], from[i], to[i]             the name, whether it is a root, the mark, and the
#   edge_count, edge[i], both[i], source[i], target[i], edge_mark[i], edge_from[i], edge_to[i]    tokens of the label
# with i from 0 in the order of the text.

# An item `( name [( R )] , .. )` whose opening sign stands at `at`; the place behind it is returned.
function read_item(at,   start, depth, commas, place, behind, end_of_label, is_marked) {
  start = at; depth = 0; commas = 0; is_marked = 0; end_of_label = 0
  for (at++; at <= tokens; at++) {
    if (token[at] == ")" && depth == 0) break
    if (token[at] == "(") depth++
    else if (token[at] == ")") depth--
    else if (token[at] == "," && depth == 0) place[++commas] = at
    else if (token[at] == "#" && depth == 0) is_marked = at
    else if (token[at] == "<" && depth == 0) { # a position, which is dropped
      if (!end_of_label) end_of_label = at - 1
      while (at <= tokens && token[at] != ">") at++
    }
  }
  if (at > tokens || (commas != 1 && commas != 3)) die("no graph: an item that is neither a node nor an edge")
  behind = is_marked ? is_marked : end_of_label ? end_of_label + 1 : at
  if (commas == 1) add_node(start, place[1], behind, is_marked)
  else add_edge(start, place[1], place[2], place[3], behind, is_marked)
  return at + 1
}

function add_node(start, comma, behind, is_marked) {
  node[node_count] = token[start + 1]
  root[node_count] = (token[start + 2] == "(")
  mark[node_count] = is_marked ? token[is_marked + 1] : ""
  from[node_count] = comma + 1
  to[node_count] = behind - 1
  node_count++
}

function add_edge(start, first, second, third, behind, is_marked) {
  edge[edge_count] = token[start + 1]
  both[edge_count] = (token[start + 2] == "(")
  source[edge_count] = token[first + 1]
  target[edge_count] = token[second + 1]
  edge_mark[edge_count] = is_marked ? token[is_marked + 1] : ""
  edge_from[edge_count] = third + 1
  edge_to[edge_count] = behind - 1
  edge_count++
}

# A graph whose `[` stands at `at`; the place behind its `]` is returned.
function read_graph(at) {
  node_count = 0; edge_count = 0
  if (tokens == 0) die("no graph: there is nothing in it")
  if (token[at] == "fail" && tokens == 1) die("no graph: the program answered `fail`")
  if (token[at] == "gp2" && token[at + 2] == "trace") die("no graph: a journal stands before it")
  if (token[at] != "[") die("no graph: `[` is missing")
  for (at++; at <= tokens && token[at] != "]"; ) {
    if (token[at] == "(") at = read_item(at)
    else if (token[at] == "<") { while (at <= tokens && token[at] != ">") at++; at++ }
    else if (token[at] == "|") at++
    else die("no graph: `" token[at] "` stands where a node, an edge or `|` is wanted")
  }
  if (at > tokens) die("no graph: `]` is missing")
  return at + 1
}

# The atoms of a host's label, a tab between each two: the list of none is the empty text.
function atoms(first, last,   list, sign, i, text) {
  list = ""; sign = ""
  for (i = first; i <= last; i++) {
    text = token[i]
    if (text == "-") { sign = "-"; continue }
    if (text == ":" || text == "empty") continue
    if (text ~ /^[0-9]+$/) { sub(/^0+/, "", text); if (text == "") { text = "0"; sign = "" } }
    list = list (list == "" ? "" : "\t") sign text
    sign = ""
  }
  return list
}

# A list as the program prints it.
function shown(list) { if (list == "") return "empty"; gsub(/\t/, ":", list); return list }
