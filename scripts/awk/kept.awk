# The graph of a run, by numbers as in the trace, and how it was before each step, so that steps can be taken back:
#   n_label[i], n_mark[i], n_root[i], in_degree[i], out_degree[i] of the nodes that are there
#   e_source[i], e_target[i], e_label[i], e_mark[i], e_name[i] of the edges; held[e_name[i]] is i
#   next_node, next_edge: the next numbers
#   changes[1 .. changed]: nodes and edges as they were before they were changed; before live step s there were changed_at[s]
#   touched[1 .. touches]: the names of what has changed since `touches` was set to 0
# The name of a node is `nI`, and that of an edge `eS_T_K`: K is the least number that no other edge from S to T has then.

function touch(name) { if (!(name in is_touched)) { is_touched[name] = 1; touched[++touches] = name } }
function forget_touched() { touches = 0; split("", is_touched) }

function set_node(i, list, mark, is_root) {
  if (!(i in n_label)) { in_degree[i] = 0; out_degree[i] = 0 }
  n_label[i] = list; n_mark[i] = mark; n_root[i] = is_root
  touch("n" i)
}
function unset_node(i) { delete n_label[i]; touch("n" i) }

# An edge that goes and comes again keeps its name.
function name_edge(i, pair,   k) {
  if ((i, pair) in name_before && !(name_before[i, pair] in held)) return name_before[i, pair]
  k = 0
  while ((pair "_" k) in held) k++
  name_before[i, pair] = pair "_" k
  return pair "_" k
}

function set_edge(i, source_node, target_node, list, mark) {
  if (i in e_label) unset_edge(i)
  e_source[i] = source_node; e_target[i] = target_node; e_label[i] = list; e_mark[i] = mark
  e_name[i] = name_edge(i, "e" source_node "_" target_node); held[e_name[i]] = i
  out_degree[source_node]++; in_degree[target_node]++
  touch(e_name[i])
}
function unset_edge(i) {
  out_degree[e_source[i]]--; in_degree[e_target[i]]--
  delete held[e_name[i]]; delete e_label[i]
  touch(e_name[i])
}

# ---- changes that can be taken back

function keep_node(i) { changes[++changed] = "n\001" i ((i in n_label) ? "\001" n_label[i] "\001" n_mark[i] "\001" n_root[i] : "") }
function keep_edge(i) {
  changes[++changed] = "e\001" i ((i in e_label) ? "\001" e_source[i] "\001" e_target[i] "\001" e_label[i] "\001" e_mark[i] : "")
}
function put_node(i, list, mark, is_root) { keep_node(i); set_node(i, list, mark, is_root) }
function put_edge(i, source_node, target_node, list, mark) { keep_edge(i); set_edge(i, source_node, target_node, list, mark) }
function drop_node(i) { keep_node(i); unset_node(i) }
function drop_edge(i) { keep_edge(i); unset_edge(i) }

function begin_step() { live++; changed_at[live] = changed; node_at[live] = next_node; edge_at[live] = next_edge }

function take_back(count,   f, parts_of_it) {
  live -= count
  for (; changed > changed_at[live + 1]; changed--) {
    parts_of_it = split(changes[changed], f, "\001")
    if (f[1] == "n" && parts_of_it > 2) set_node(f[2], f[3], f[4], f[5])
    else if (f[1] == "n") unset_node(f[2])
    else if (parts_of_it > 2) set_edge(f[2], f[3], f[4], f[5], f[6])
    else unset_edge(f[2])
  }
  next_node = node_at[live + 1]; next_edge = edge_at[live + 1]
}
