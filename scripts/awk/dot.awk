# Writes graphs as Graphviz DOT, to the file `dot_file`.

BEGIN { dot_file = "/dev/stdout" }

# A quoted text of DOT that shows just the characters of the text.
function quoted(text,   i, char, made) {
  for (i = 1; i <= length(text); i++) {
    char = substr(text, i, 1)
    made = made (char == "\\" ? "\\\\" : char == "\"" ? "\\\"" : char == "&" ? "&amp;" : char)
  }
  return "\"" made "\""
}

function fill_of(mark) {
  if (mark == "red") return "#f4a6a0"
  if (mark == "green") return "#a9dba4"
  if (mark == "blue") return "#a8c8f0"
  if (mark == "grey") return "#c8c8c8"
  return "white"
}

function line_of(mark) {
  if (mark == "red") return "#c62828"
  if (mark == "green") return "#2e7d32"
  if (mark == "blue") return "#1565c0"
  return "black"
}

function begin_dot(name, caption) {
  print "digraph " quoted(name) " {" >dot_file
  if (caption != "") print "  label=" quoted(caption) "; labelloc=t; fontname=\"Helvetica\";" >dot_file
  print "  node [shape=ellipse, style=filled, fontname=\"Helvetica\"];" >dot_file
  print "  edge [fontname=\"Helvetica\"];" >dot_file
}

# The list of none is shown as nothing, and the empty string as two quotation marks.
function dot_node(name, list, mark, is_root, is_bold, with_name,   text) {
  text = list == "" ? "" : shown(list)
  if (with_name) text = name (text == "" ? "" : ": " text)
  print "  " quoted(name) " [label=" quoted(text) ", fillcolor=\"" fill_of(mark) "\"" (is_root ? ", peripheries=2" : "") \
    (is_bold ? ", penwidth=3" : "") "];" >dot_file
}

function dot_edge(source, target, list, mark, is_bold) {
  print "  " quoted(source) " -> " quoted(target) " [label=" quoted(list == "" ? "" : shown(list)) ", color=\"" line_of(mark) \
    "\"" (mark == "dashed" ? ", style=dashed" : "") (is_bold ? ", penwidth=3" : "") "];" >dot_file
}

function end_dot() { print "}" >dot_file; if (dot_file != "/dev/stdout") close(dot_file) }
