# Keeps what is seen at each place of a run, for scripts/run-to-html. At each place, each node and each edge has a look: its
# label, its mark, whether it is a root, and whether the next item matches it. All graphs of the run are drawn as one, in
# which each node has one place; a node `nI` is the one of number I, and an edge `eS_T_K` is the K-th of the edges from
# node S to node T, in the order of their numbers. PLACES gets, for each place of the run in turn, a line
#   place TAB ITEM TAB RULE           the next item (`end` at the last place), and the rule of a step, or `fail`
# and before it a line for each node and each edge that looks otherwise than at the place before, and for each new look:
#   look TAB NUMBER TAB MARK TAB ROOT TAB MATCHED TAB LABEL           the look 0 is that of what is not there
#   looks TAB NAME TAB NUMBER

function look_of(mark, is_root, is_matched, label,   text) {
  text = mark "\t" (is_root ? 1 : 0) "\t" (is_matched ? 1 : 0) "\t" label
  if (!(text in look_number)) { look_number[text] = ++looks; print "look\t" looks "\t" text >places }
  return look_number[text]
}

# The look of what has that name, now. What is drawn is as large as the longest label that it ever has.
function look_now(name, is_matched,   i, is_node, is_root, label) {
  is_node = name ~ /^n/
  if (is_node) i = substr(name, 2)
  else if (name in held) i = held[name]
  if (is_node ? !(i in n_label) : !(name in held)) return 0
  label = is_node ? n_label[i] : e_label[i]; is_root = is_node && n_root[i]
  label = label == "" ? "" : shown(label)
  if (!(name in look_before)) {
    drawn_name[++drawn] = name; look_before[name] = 0; longest[name] = ""
    if (!is_node) { end_of[name] = "n" e_source[i]; other_end_of[name] = "n" e_target[i] }
  }
  if (length(label) > length(longest[name])) longest[name] = label
  if (is_root) ever_root[name] = 1
  return look_of(is_node ? n_mark[i] : e_mark[i], is_root, is_matched, label)
}

# What looks otherwise was changed, was matched before, or is matched now.
function note_place(line, rule,   k, name, look, is_matched) {
  if (places == "") return
  for (k = 1; k <= matches; k++) touch(matched[k])
  matches = 0
  if (line ~ /^step /) {
    for (k = 0; k < size[now, 0, "nodes"]; k++) matched[++matches] = "n" image[part[now, 0, "node", k, "name"]]
    for (k = 0; k < size[now, 0, "edges"]; k++) matched[++matches] = e_name[took_edge[part[now, 0, "edge", k, "name"]]]
  }
  for (k = 1; k <= matches; k++) { touch(matched[k]); is_matched[matched[k]] = 1 }
  for (k = 1; k <= touches; k++) {
    name = touched[k]; look = look_now(name, name in is_matched)
    if (look != look_before[name]) { print "looks\t" name "\t" look >places; look_before[name] = look }
  }
  forget_touched()
  print "place\t" line "\t" rule >places
}

# The graph of all that is ever there. Each part of the picture has its name as its id.
function draw_places(   k, name) {
  print "digraph \"run\" {" >dot_file
  print "  node [shape=ellipse, style=filled, fontname=\"Helvetica\", fillcolor=white];\n  edge [fontname=\"Helvetica\"];" >dot_file
  for (k = 1; k <= drawn; k++) {
    name = drawn_name[k]
    if (name ~ /^n/)
      print "  " name " [id=" name ", label=" quoted(name (longest[name] == "" ? "" : ": " longest[name])) ((name in ever_root) ? ", peripheries=2" : "") "];" >dot_file
    else
      print "  " end_of[name] " -> " other_end_of[name] " [id=" name ", label=" quoted(longest[name]) "];" >dot_file
  }
  end_dot()
}
