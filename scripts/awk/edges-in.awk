# Makes a host of a table of edges and, where there is one, a table of nodes.

# Which columns make labels: those of the option, or `list`, or `label`. With the kind `plain` each cell is an atom.
function choose_columns(option, is_given, places,   names, count, i) {
  if (!is_given && ("list" in column)) { kind = "list"; places[1] = taken_column("list"); return 1 }
  kind = "plain"
  if (!is_given) { if ("label" in column) { places[1] = taken_column("label"); return 1 }; kind = "none"; return 0 }
  count = option == "" ? 0 : split(option, names, ",")
  for (i = 1; i <= count; i++) places[i] = wanted_column(names[i])
  return count
}

function list_of_row(cells, places, count, how,   i, list) {
  if (how == "list") return said_list(cells[places[1]], where_row)
  list = ""
  for (i = 1; i <= count; i++) if (cells[places[i]] != "") list = longer(list, plain_atom(cells[places[i]], where_row))
  return list
}

function cell_at(cells, place) { return place ? cells[place] : "" }

function read_nodes(file,   cells, id, list_places, list_count, how, mark, root, i, list, its_mark, is_rooted) {
  begin_table(file, "")
  id = wanted_column(ENVIRON["NODE"])
  list_count = choose_columns(ENVIRON["NODE_LABEL"], ENVIRON["HAS_NODE_LABEL"], list_places); how = kind
  mark = taken_column("mark"); root = taken_column("root")
  while (next_row(file, cells) > 0) {
    i = new_node(cells[id], where_row)
    list = list_of_row(cells, list_places, list_count, how)
    its_mark = check_mark("node", cell_at(cells, mark), where_row)
    is_rooted = is_root(cell_at(cells, root), where_row)
    if (how == "none") set_node_without_list(i, its_mark, is_rooted)
    else set_node(i, list, its_mark, is_rooted)
  }
}

function end_of(id) {
  if (id == "") refuse(where_row, "an edge without a source or a target")
  if (has_nodes || (id in number_of)) return node_of(id, where_row)
  return new_node(id, where_row)
}

function read_edges(file,   cells, source, target, list_places, list_count, how, mark, began) {
  begin_table(file, ENVIRON["COLUMNS_GIVEN"])
  source = wanted_column(ENVIRON["SOURCE"]); target = wanted_column(ENVIRON["TARGET"])
  list_count = choose_columns(ENVIRON["LABEL"], ENVIRON["HAS_LABEL"], list_places); how = kind
  mark = taken_column("mark")
  while (next_row(file, cells) > 0) {
    began = end_of(cells[source])
    new_edge(began, end_of(cells[target]), list_of_row(cells, list_places, list_count, how), check_mark("edge", cell_at(cells, mark), where_row))
  }
}

BEGIN {
  name_of_script = "edges-to-host"; separator = ENVIRON["SEPARATOR"]; splits_at = "[" separator "]"
  made_nodes = 0; made_edges = 0
  has_nodes = ENVIRON["NODES"] != ""
  if (has_nodes) read_nodes(ENVIRON["NODES"])
  read_edges(ENVIRON["FILE"])
  if (!has_nodes && ENVIRON["HAS_NODE_LABEL"]) for (i = 0; i < made_nodes; i++) set_node(i, "", "", 0)
  write_host()
}
