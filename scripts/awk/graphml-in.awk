# Makes a host of a file of GraphML.

function tag_place() { return xml_name ", line " tag_line }

function needed(name) {
  if (!(name in attribute)) refuse(tag_place(), "<" tag "> has no " name)
  return attribute[name]
}

# A key says what data of nodes or edges are called and of which type. Several keys may have one name.
function read_key(   id, kind) {
  id = needed("id")
  if (id in key_name) refuse(tag_place(), "a second key " told(id))
  key_name[id] = ("attr.name" in attribute) ? attribute["attr.name"] : id
  key_type[id] = ("attr.type" in attribute) ? attribute["attr.type"] : "string"
  key_for[id] = ("for" in attribute) ? attribute["for"] : "all"
  key_line[id] = tag_line
  keys[++key_count] = id
  if (!is_closed) while (next_tag() && tag != "/key")
    if (tag == "default") { key_default[id] = content("default"); has_default[id] = 1; has_defaults = 1 }
}

# The text of the element whose tag was read last, up to its end.
function content(name,   text) {
  if (is_closed) return ""
  text = behind
  next_tag()
  if (tag != "/" name) refuse(tag_place(), "<" tag "> in " told("<" name ">") ": only text is read there")
  return text
}

# Goes over the rest of an element that says nothing of a host.
function pass_element(   until) {
  if (is_closed) return
  until = depth - 1
  while (depth > until && next_tag());
}

# The data of the node or the edge whose tag was read last: said[name], its type, and its line.
function read_data(name,   id) {
  split("", said); split("", said_key); split("", said_line)
  if (is_closed) return
  while (1) {
    if (next_simple_data()) { if (is_wanted(data_key, name)) keep_data(data_key, behind, tag_line); continue }
    if (!next_tag() || tag == "/" name) return
    if (tag == "data") {
      id = needed("key")
      if (is_wanted(id, name)) keep_data(id, content("data"), tag_line)
      else pass_element()
    } else if (tag ~ /^(graph|hyperedge|port|endpoint)$/)
      refuse(tag_place(), "<" tag "> in a " name ": a host cannot represent that")
    else pass_element()
  }
}

function is_wanted(id, name) {
  if (!(id in key_name)) refuse(tag_place(), "there is no key " told(id))
  if (!(key_name[id] in used)) return 0
  if (key_name[id] in said) refuse(tag_place(), "data named " told(key_name[id]) " for the second time in one " name)
  return 1
}

function keep_data(id, text, line) { said[key_name[id]] = text; said_key[key_name[id]] = id; said_line[key_name[id]] = line }
function said_place(name) { return xml_name ", line " said_line[name] }

# What is said of nodes or edges without data of their own.
function add_defaults(kind,   i, id) {
  if (has_defaults) for (i = 1; i <= key_count; i++) {
    id = keys[i]
    if (!has_default[id] || (key_for[id] != kind && key_for[id] != "all")) continue
    if (key_name[id] in said) continue
    keep_data(id, key_default[id], key_line[id])
  }
}

function typed_atom(name,   text, type) {
  text = said[name]; type = key_type[said_key[name]]
  if (type !~ /^(int|integer|long)$/) return string_atom(text, said_place(name))
  if (!is_integer(text)) {
    gsub(/^[ \t\r\n]+|[ \t\r\n]+$/, "", text); sub(/^\+/, "", text)
    if (text !~ /^-?[0-9]+$/) refuse(said_place(name), told(text) " is not an integer, but its key has the type " type)
    text = signed(text ~ /^-/, trimmed(magnitude(text)))
  }
  return integer_atom(text, said_place(name))
}

# Which data make labels: those of the option, or `list`, or `label`.
function choose(option, is_given, names,   count) {
  if (!is_given) { names[1] = "label"; used["list"] = 1; used["label"] = 1; return 1 }
  count = option == "" ? 0 : split(option, names, ",")
  for (i = 1; i <= count; i++) used[names[i]] = 1
  return count
}

# The list that the data say; `has_said` tells whether they say one.
function list_said(names, count, is_given,   i, list) {
  has_said = 1
  if (!is_given && ("list" in said)) return said_list(said["list"], said_place("list"))
  list = ""; has_said = is_given
  for (i = 1; i <= count; i++) if (names[i] in said) { has_said = 1; list = longer(list, typed_atom(names[i])) }
  return list
}

function mark_said(kind) { return ("mark" in said) ? check_mark(kind, said["mark"], said_place("mark")) : "" }

function read_node(   i, list, mark, is_rooted) {
  i = new_node(needed("id"), tag_place())
  read_data("node"); add_defaults("node")
  list = list_said(node_names, node_columns, has_node_names)
  mark = mark_said("node"); is_rooted = ("root" in said) ? is_root(said["root"], said_place("root")) : 0
  if (has_said) set_node(i, list, mark, is_rooted)
  else set_node_without_list(i, mark, is_rooted)
}

# An edge may stand before its nodes: then its ends are looked up at the end of the graph.
function read_edge(   from_id, to_id, line, directed, list, mark) {
  from_id = needed("source"); to_id = needed("target"); line = tag_line
  directed = ("directed" in attribute) ? attribute["directed"] ~ /^(true|1)$/ : is_directed
  if (!directed && undirected == "")
    refuse(tag_place(), "an undirected edge, and all edges of a host are directed; --undirected one makes one edge of each, " \
      "from its source to its target, and --undirected both also one in the other direction")
  read_data("edge"); add_defaults("edge")
  list = list_said(edge_names, edge_columns, has_edge_names)
  mark = mark_said("edge")
  add_edge_of(from_id, to_id, list, mark, line)
  if (!directed && undirected == "both" && from_id != to_id) add_edge_of(to_id, from_id, list, mark, line)
}

function add_edge_of(from_id, to_id, list, mark, line) {
  if (!(from_id in number_of) || !(to_id in number_of)) {
    waiting[waiting_count] = made_edges; waiting_line[waiting_count] = line
    waiting_from[waiting_count] = from_id; waiting_to[waiting_count++] = to_id
    new_edge("", "", list, mark)
  } else new_edge(number_of[from_id], number_of[to_id], list, mark)
}

function end_of(id, line) {
  if (!(id in number_of)) refuse(xml_name ", line " line, "there is no node " told(id))
  return number_of[id]
}

function read_graphml_graph(   i, k) {
  graphs++
  if (graphs > 1) refuse(tag_place(), "a second graph: a host is a single graph")
  is_directed = !("edgedefault" in attribute) || attribute["edgedefault"] != "undirected"
  if (is_closed) return
  while (next_tag() && tag != "/graph") {
    if (tag == "node") read_node()
    else if (tag == "edge") read_edge()
    else if (tag ~ /^(graph|hyperedge)$/) refuse(tag_place(), "<" tag ">: a host cannot represent that")
    else pass_element()
  }
  for (i = 0; i < waiting_count; i++) {
    k = waiting[i]
    made_edge[k] = end_of(waiting_from[i], waiting_line[i]) "\t" end_of(waiting_to[i], waiting_line[i]) substr(made_edge[k], 2)
  }
}

# Names that are asked for have to be those of keys.
function check_names(option, is_given, names, count, kind,   i, k, is_there) {
  if (is_given) for (i = 1; i <= count; i++) {
    is_there = 0
    for (k = 1; k <= key_count; k++) if (key_name[keys[k]] == names[i] && (key_for[keys[k]] == kind || key_for[keys[k]] == "all")) is_there = 1
    if (!is_there) refuse(xml_name, "there is no key for the " option " " told(names[i]) " of " kind "s")
  }
}

BEGIN {
  name_of_script = "graphml-to-host"
  has_edge_names = ENVIRON["HAS_LABEL"]; has_node_names = ENVIRON["HAS_NODE_LABEL"]; undirected = ENVIRON["UNDIRECTED"]
  made_nodes = 0; made_edges = 0; waiting_count = 0; graphs = 0; key_count = 0
  used["mark"] = 1; used["root"] = 1
  edge_columns = choose(ENVIRON["LABEL"], has_edge_names, edge_names)
  node_columns = choose(ENVIRON["NODE_LABEL"], has_node_names, node_names)
  read_xml(ENVIRON["FILE"])
  if (!next_tag()) refuse(xml_name, "not GraphML: there is no tag")
  if (tag != "graphml") refuse(tag_place(), "not GraphML: the first tag is " told("<" tag ">"))
  if (!is_closed) while (next_tag() && tag != "/graphml") {
    if (tag == "key") read_key()
    else if (tag == "graph") read_graphml_graph()
    else pass_element()
  }
  if (next_tag()) refuse(tag_place(), "not XML: <" tag "> follows the end")
  if (graphs == 0) refuse(xml_name, "it contains no graph")
  check_names("label", has_edge_names, edge_names, edge_columns, "edge")
  check_names("label", has_node_names, node_names, node_columns, "node")
  write_host()
}
