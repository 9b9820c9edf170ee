# Reads a graph and holds it to be a host: what no host has is refused. Each node and then each edge is handed on, by
#   take_node(name, list, mark, rooted)      take_edge(name, source, target, list, mark)
# and `begin_taking()` stands before the first, and once more where a text that is not as the program prints it is read anew.

function read_checked(file) {
  begin_taking()
  if (read_printed(file)) return
  begin_taking()
  read_host()
}

# ---- a graph as the program prints it, an item on each line: it is not cut into tokens

# Anything else is left to read_host, whether it is a host of another form or none: 0 is returned, and the lines are held.
function read_printed(file,   line, got, part) {
  part = "before"; held_count = 0; held_lines = 0; taken_nodes = 0; taken_edges = 0
  while ((got = (getline line <file)) > 0) {
    hold(line)
    if (part == "nodes" && line != "|") { if (!read_node_line(line)) break }
    else if (part == "edges" && line != "]") { if (!read_edge_line(line)) break }
    else if (part == "before" && line == "[") part = "nodes"
    else if (part == "nodes") part = "edges"
    else if (part == "edges") part = "behind"
    else break
  }
  if (got == 0 && part == "behind") { close(file); return 1 }
  while (got > 0 && (got = (getline line <file)) > 0) hold(line)
  if (got < 0) die("cannot read " file)
  close(file)
  return 0
}

# Many lines stand in one place: a place for each takes longer.
function hold(line) {
  if (held_lines++ % 50 == 0) held_count++
  held[held_count] = held[held_count] line "\n"
}

function read_node_line(line,   at, name, list, rooted) {
  if (line !~ /^  \([A-Za-z0-9_]+(\(R\))?, (empty|(0|-?[1-9][0-9]*|"[ !#-~]*")(:(0|-?[1-9][0-9]*|"[ !#-~]*"))*)( # (red|green|blue|grey))?\)$/)
    return 0
  at = index(line, ",")
  rooted = substr(line, at - 1, 1) == ")"
  name = substr(line, 4, at - 4 - 3 * rooted)
  list = list_of_line(substr(line, at + 2, length(line) - at - 2))
  if (list == "no list" || !is_name(name) || (name in is_node)) return 0
  is_node[name] = 1
  take_node(name, list, mark_of_line, rooted)
  return 1
}

function read_edge_line(line,   cell, list, at) {
  if (line !~ /^  \([A-Za-z0-9_]+, [A-Za-z0-9_]+, [A-Za-z0-9_]+, (empty|(0|-?[1-9][0-9]*|"[ !#-~]*")(:(0|-?[1-9][0-9]*|"[ !#-~]*"))*)( # (red|green|blue|dashed))?\)$/)
    return 0
  split(line, cell, /, /)
  at = length(cell[1]) + length(cell[2]) + length(cell[3]) + 7
  cell[1] = substr(cell[1], 4)
  list = list_of_line(substr(line, at, length(line) - at))
  if (list == "no list" || !is_name(cell[1]) || (cell[1] in is_edge) || !(cell[2] in is_node) || !(cell[3] in is_node)) return 0
  is_edge[cell[1]] = 1
  take_edge(cell[1], cell[2], cell[3], list, mark_of_line)
  return 1
}

# The list of a label as the program prints it, with its mark in `mark_of_line`; "no list" if a number does not fit.
function list_of_line(text,   list) {
  mark_of_line = ""
  if (match(text, / # [a-z]+$/)) { mark_of_line = substr(text, RSTART + 3); text = substr(text, 1, RSTART - 1) }
  if (text == "empty") return ""
  if (text !~ /"/) gsub(/:/, "\t", text)
  else if (text !~ /^"[^"]*"$/) {
    list = ""
    while (match(text, /^("[^"]*"|[^":]+)/)) { list = longer(list, substr(text, 1, RLENGTH)); text = substr(text, RLENGTH + 2) }
    text = list
  }
  return length(text) < 39 || are_in_range(text) ? text : "no list"
}

function are_in_range(list,   atom, count, i) {
  count = split(list, atom, "\t")
  for (i = 1; i <= count; i++) if (atom[i] !~ /^"/ && !is_in_range(atom[i])) return 0
  return 1
}

# ---- any other host, from the lines that are held

function read_host(   i, k, count, line) {
  split("", is_node); split("", is_edge)
  tokens = 0; in_comment = 0
  for (i = 1; i <= held_count; i++) {
    count = split(held[i], line, "\n") - 1
    for (k = 1; k <= count; k++) cut_line(line[k])
  }
  if (read_graph(1) <= tokens) refuse("", "not a graph: something follows `]`")
  for (i = 0; i < node_count; i++) hand_on_node(i, "node " told(node[i]))
  for (i = 0; i < edge_count; i++) hand_on_edge(i, "edge " told(edge[i]))
}

function hand_on_node(i, where,   list) {
  if (!is_name(node[i])) refuse(where, "not a valid name in a host")
  if (!is_item(node[i], root[i], from[i] - 1, to[i], mark[i] != "")) refuse(where, "not a node in the notation of hosts")
  if (node[i] in is_node) refuse(where, "two nodes have this name")
  is_node[node[i]] = 1
  list = checked_list(from[i], to[i], where)
  take_node(node[i], list, check_mark("node", mark[i], where), root[i])
}

function hand_on_edge(i, where,   list) {
  if (!is_name(edge[i])) refuse(where, "not a valid name in a host")
  if (edge[i] in is_edge) refuse(where, "two edges have this name")
  if (both[i] || token[edge_from[i] - 6] != edge[i] || token[edge_from[i] - 4] != source[i] ||
    !is_item(target[i], 0, edge_from[i] - 1, edge_to[i], edge_mark[i] != "")) refuse(where, "not an edge in the notation of hosts")
  is_edge[edge[i]] = 1
  if (!(source[i] in is_node)) refuse(where, "there is no node " told(source[i]))
  if (!(target[i] in is_node)) refuse(where, "there is no node " told(target[i]))
  list = checked_list(edge_from[i], edge_to[i], where)
  take_edge(edge[i], source[i], target[i], list, check_mark("edge", edge_mark[i], where))
}

# The list of a label that has the tokens `first` to `last`.
function checked_list(first, last, where,   list) {
  list = list_of_tokens(first, last, where)
  if (list == "no list") refuse(where, "its label is not a list in the notation of hosts")
  return list
}

# Whether the tokens round a label are just a name, a comma, and behind the label a mark or none; graph.awk takes more.
function is_item(name, is_rooted, comma, last, has_mark) {
  if (is_rooted ? token[comma - 4] token[comma - 3] token[comma - 2] token[comma - 1] != name "(R)" : token[comma - 1] != name) return 0
  return token[last + (has_mark ? 3 : 1)] ~ /^[)<]$/
}

# ---- what nodes are called in the data: with --by-label the first atom of the label, and else the name

function call_node(name, list,   atom, text) {
  if (!ENVIRON["BY_LABEL"]) { called[name] = name; return }
  if (list == "") refuse("node " told(name), "its label has no atom, so --by-label gives it no name")
  split(list, atom, "\t")
  text = plain_text(atom[1])
  if (text == "") refuse("node " told(name), "its label begins with the empty string, which is not a name")
  if (text in node_called) refuse("node " told(name), "it has the name " told(text) " by its label, as node " told(node_called[text]))
  node_called[text] = name; called[name] = text
}

function forget_names() { split("", called); split("", node_called) }

# ---- texts that are made, by their kinds: nothing is written before the last line is made

function add_line(kind, line) {
  if (made_lines[kind]++ % 50 == 0) made_texts[kind]++
  made_text[kind, made_texts[kind]] = made_text[kind, made_texts[kind]] line "\n"
}

function forget_lines() { split("", made_lines); split("", made_texts); split("", made_text) }

# Into the file, or where that is empty to standard output.
function print_lines(kind, file,   i) {
  for (i = 1; i <= made_texts[kind]; i++)
    if (file == "") printf "%s", made_text[kind, i]
    else printf "%s", made_text[kind, i] >file
}
