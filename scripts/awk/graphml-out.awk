# Writes a graph as GraphML.

function xml(text) {
  if (text !~ /[&<>"]/) return text
  gsub(/&/, "\\&amp;", text); gsub(/</, "\\&lt;", text); gsub(/>/, "\\&gt;", text); gsub(/"/, "\\&quot;", text)
  return text
}

function data(key, text) { return "      <data key=\"" key "\">" xml(text) "</data>\n" }

function add_key(id, kind, name, type) {
  print "  <key id=\"" id "\" for=\"" kind "\" attr.name=\"" xml(name) "\" attr.type=\"" type "\"/>"
}

# The data of the atoms, one for each name. A key has one type, and `long` has 64 bits.
function data_of_atoms(list, count, kind, name,   i, atom, spare, type, made) {
  spare = split(list, atom, "\t")
  if (spare > count) refuse(kind " " told(name), "its label has " spare (spare == 1 ? " atom" : " atoms") ", but names are given for only " count)
  for (i = 1; i <= spare; i++) {
    type = atom[i] ~ /^"/ ? "string" : "long"
    if (type == "long" && length(atom[i]) > 18) check_long(atom[i], kind, name)
    if (((kind, i) in type_of) && type_of[kind, i] != type)
      refuse(kind " " told(name), told(atom[i]) " is " (type == "long" ? "an integer" : "a string") ", but others in its place are not: all data of one name have the same type")
    type_of[kind, i] = type
    made = made data(kind "-" i, plain_text(atom[i]))
  }
  return made
}

function check_long(atom, kind, name,   size) {
  size = magnitude(atom)
  if (is_less("9223372036854775808", size) || (atom !~ /^-/ && size == "9223372036854775808"))
    refuse(kind " " told(name), told(atom) " does not fit into 64 bits, as data of type long must")
}

function add_keys(kind, names, count,   i) {
  if (count < 0) add_key(kind "-list", kind, "list", "string")
  for (i = 1; i <= count; i++) add_key(kind "-" i, kind, names[i], ((kind, i) in type_of) ? type_of[kind, i] : "string")
  add_key(kind "-mark", kind, "mark", "string")
}

function data_of(list, count, kind, name, mark) {
  return (count < 0 ? data(kind "-list", shown(list)) : list == "" ? "" : data_of_atoms(list, count, kind, name)) \
    (mark == "" ? "" : data(kind "-mark", mark))
}

function begin_taking() { forget_names(); forget_lines(); split("", type_of) }

function take_node(name, list, mark, rooted) {
  call_node(name, list)
  add_line("graph", "    <node id=\"" xml(called[name]) "\">\n" data_of(list, node_columns, "node", name, mark) \
    (rooted ? data("node-root", "true") : "") "    </node>")
}

function take_edge(name, source, target, list, mark) {
  add_line("graph", "    <edge source=\"" xml(called[source]) "\" target=\"" xml(called[target]) "\">\n" \
    data_of(list, edge_columns, "edge", name, mark) "    </edge>")
}

BEGIN {
  name_of_script = "graph-to-graphml"
  edge_columns = ENVIRON["HAS_LABEL"] ? split_names(ENVIRON["LABEL"], edge_names, "^(list|mark|id)$", "--label") : -1
  node_columns = ENVIRON["HAS_NODE_LABEL"] ? split_names(ENVIRON["NODE_LABEL"], node_names, "^(list|mark|root|id)$", "--node-label") : -1
  read_checked(ENVIRON["FILE"])
  print "<?xml version=\"1.0\" encoding=\"UTF-8\"?>"
  print "<graphml xmlns=\"http://graphml.graphdrawing.org/xmlns\" xmlns:xsi=\"http://www.w3.org/2001/XMLSchema-instance\""
  print "  xsi:schemaLocation=\"http://graphml.graphdrawing.org/xmlns http://graphml.graphdrawing.org/xmlns/1.0/graphml.xsd\">"
  add_keys("node", node_names, node_columns)
  add_key("node-root", "node", "root", "boolean")
  add_keys("edge", edge_names, edge_columns)
  print "  <graph edgedefault=\"directed\">"
  print_lines("graph")
  print "  </graph>"
  print "</graphml>"
}
