# Writes a graph as a table of edges and, where it is asked for, a table of nodes.

# A list in its columns: whole, or one atom a cell. What a cell without types would not say again is refused.
function cells_of(list, count, kind, name,   i, atom, spare, text, row) {
  if (count < 0) return csv(shown(list))
  spare = list == "" ? 0 : split(list, atom, "\t")
  if (spare > count) refuse(kind " " told(name), "its label has " spare (spare == 1 ? " atom" : " atoms") ", but columns are named for only " count)
  for (i = 1; i <= count; i++) {
    text = i > spare ? "" : plain_text(atom[i])
    if (i <= spare && atom[i] ~ /^"/ && (text == "" || is_integer(text)))
      refuse(kind " " told(name), "the string " atom[i] " would be read as " (text == "" ? "no atom" : "an integer") " in a column of its own")
    row = row (i == 1 ? "" : separator) csv(text)
  }
  return row
}

function columns_of(names, count,   i, row) {
  if (count < 0) return "list"
  for (i = 1; i <= count; i++) row = row (i == 1 ? "" : separator) csv(names[i])
  return row
}

# A row of cells, of which the second, the label's, may be of no column.
function row_of(first, label, count, rest) { return first separator (count == 0 ? "" : label separator) rest }

function begin_taking() {
  forget_names(); forget_lines()
  add_line("node", row_of("node", columns_of(node_names, node_columns), node_columns, "mark" separator "root"))
  add_line("edge", row_of("source" separator "target", columns_of(edge_names, edge_columns), edge_columns, "mark"))
}

function take_node(name, list, mark, rooted) {
  call_node(name, list)
  if (!has_nodes) return
  add_line("node", row_of(csv(called[name]), cells_of(list, node_columns, "node", name), node_columns, mark separator (rooted ? "true" : "false")))
}

function take_edge(name, source, target, list, mark) {
  add_line("edge", row_of(csv(called[source]) separator csv(called[target]), cells_of(list, edge_columns, "edge", name), edge_columns, mark))
}

BEGIN {
  name_of_script = "graph-to-edges"; separator = ENVIRON["SEPARATOR"]; has_nodes = ENVIRON["NODES"] != ""
  edge_columns = ENVIRON["HAS_LABEL"] ? split_names(ENVIRON["LABEL"], edge_names, "^(source|target|mark)$", "--label") : -1
  node_columns = ENVIRON["HAS_NODE_LABEL"] ? split_names(ENVIRON["NODE_LABEL"], node_names, "^(node|mark|root)$", "--node-label") : -1
  read_checked(ENVIRON["FILE"])
  if (has_nodes) print_lines("node", ENVIRON["NODES"])
  print_lines("edge", "")
}
