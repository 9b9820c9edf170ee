# Makes the steps of a trace again, on the graph of scripts/awk/kept.awk, and draws each.

function begin_host(   i, number) {
  read_tokens(host); read_graph(1)
  for (i = 0; i < node_count; i++) { number[node[i]] = i; set_node(i, atoms(from[i], to[i]), mark[i], root[i]) }
  for (i = 0; i < edge_count; i++) set_edge(i, number[source[i]], number[target[i]], atoms(edge_from[i], edge_to[i]), edge_mark[i])
  next_node = node_count; next_edge = edge_count
}

# ---- a step: `step R nodes A .. edges B[~] ..`, whose words stand in word[1 .. words]

function take_images(words,   i, k, name) {
  split("", image); split("", took_edge); split("", value); split("", turned)
  now = word[2]; k = 0
  for (i = 4; i <= words && word[i] != "edges"; i++) image[part[now, 0, "node", k++, "name"]] = word[i]
  for (k = 0; ++i <= words; k++) {
    name = part[now, 0, "edge", k, "name"]
    turned[name] = (word[i] ~ /~$/); sub(/~$/, "", word[i])
    took_edge[name] = word[i]
  }
}

function learn_all(   k, w) {
  for (k = 0; k < size[now, 0, "nodes"]; k++) {
    w = image[part[now, 0, "node", k, "name"]]
    learn(part[now, 0, "node", k, "from"], part[now, 0, "node", k, "to"], n_label[w])
  }
  for (k = 0; k < size[now, 0, "edges"]; k++)
    learn(part[now, 0, "edge", k, "from"], part[now, 0, "edge", k, "to"], e_label[took_edge[part[now, 0, "edge", k, "name"]]])
}

# The right labels and marks are worked out first, since they speak of the graph before the step.
function make_step(   k, name, w, l) {
  learn_all()
  split("", left_mark); split("", left_ends)
  for (k = 0; k < size[now, 0, "nodes"]; k++) {
    name = part[now, 0, "node", k, "name"]; w = image[name]
    left_root[name] = part[now, 0, "node", k, "root"]; left_mark["node", name] = n_mark[w]
  }
  for (k = 0; k < size[now, 0, "edges"]; k++) {
    name = part[now, 0, "edge", k, "name"]; w = took_edge[name]
    left_mark["edge", name] = e_mark[w]; began[name] = e_source[w]; ended[name] = e_target[w]
    left_ends[name] = part[now, 0, "edge", k, "both"] SUBSEP part[now, 0, "edge", k, "source"] SUBSEP part[now, 0, "edge", k, "target"]
  }
  for (k = 0; k < size[now, 1, "nodes"]; k++) node_value[k] = list_of(part[now, 1, "node", k, "from"], part[now, 1, "node", k, "to"])
  for (k = 0; k < size[now, 1, "edges"]; k++) edge_value[k] = list_of(part[now, 1, "edge", k, "from"], part[now, 1, "edge", k, "to"])
  take_away()
  add_nodes()
  add_edges()
}

function take_away(   k, name) {
  for (k = 0; k < size[now, 0, "edges"]; k++) drop_edge(took_edge[part[now, 0, "edge", k, "name"]])
  for (k = 0; k < size[now, 0, "nodes"]; k++) {
    name = part[now, 0, "node", k, "name"]
    if (!((now, name) in in_interface)) drop_node(image[name])
  }
}

function mark_after(kind, k, name,   said) {
  said = part[now, 1, kind, k, "mark"]
  return said == "any" ? left_mark[kind, name] : said
}

function add_nodes(   k, name, w, is_root) {
  for (k = 0; k < size[now, 1, "nodes"]; k++) {
    name = part[now, 1, "node", k, "name"]; is_root = part[now, 1, "node", k, "root"]
    if ((now, name) in in_interface) {
      w = image[name]
      is_root = is_root ? 1 : left_root[name] ? 0 : n_root[w]
    } else w = next_node++
    place[name] = w
    put_node(w, node_value[k], mark_after("node", k, name), is_root)
  }
}

# Whether right edge k is the left edge of its name. In version 1 of traces each step made all edges anew.
function is_kept(k, name,   both, from_name, to_name) {
  if (version == 1) return 0
  both = part[now, 1, "edge", k, "both"]; from_name = part[now, 1, "edge", k, "source"]; to_name = part[now, 1, "edge", k, "target"]
  if (!(name in left_ends) || !((now, from_name) in in_interface) || !((now, to_name) in in_interface)) return 0
  return left_ends[name] == both SUBSEP from_name SUBSEP to_name || (both && left_ends[name] == both SUBSEP to_name SUBSEP from_name)
}

function add_edges(   k, name, w, is_both) {
  for (k = 0; k < size[now, 1, "edges"]; k++) {
    name = part[now, 1, "edge", k, "name"]; w = is_kept(k, name) ? took_edge[name] : next_edge++
    is_both = part[now, 1, "edge", k, "both"]
    put_edge(w, is_both ? began[name] : place[part[now, 1, "edge", k, "source"]],
      is_both ? ended[name] : place[part[now, 1, "edge", k, "target"]], edge_value[k], mark_after("edge", k, name))
  }
}

# ---- pictures

function draw(name, caption,   i, bold_node, bold_edge, k) {
  for (k in image) bold_node[image[k]] = 1
  for (k in took_edge) bold_edge[took_edge[k]] = 1
  begin_dot(name, caption)
  for (i = 0; i < next_node; i++) if (i in n_label) dot_node("n" i, n_label[i], n_mark[i], n_root[i], i in bold_node, 0)
  for (i = 0; i < next_edge; i++)
    if (i in e_label) dot_edge("n" e_source[i], "n" e_target[i], e_label[i], e_mark[i], i in bold_edge)
  end_dot()
}

# The graph as the program prints it, edges in the order of their lines, for the comparison.
function printed_lines(   i, text) {
  for (i in n_label) seen["  (n" i (n_root[i] ? "(R)" : "") ", " shown(n_label[i]) (n_mark[i] == "" ? "" : " # " n_mark[i]) ")"]++
  for (i in e_label)
    seen["n" e_source[i] ", n" e_target[i] ", " shown(e_label[i]) (e_mark[i] == "" ? "" : " # " e_mark[i]) ")"]++
}

# ---- the trace and the result, line by line

function read_printed(   line, words) {
  while ((getline line) > 0) {
    if (!version && line !~ /^gp2-trace [12]$/) die("no trace: it begins with `" line "`; `gp2 run --journal` prints one")
    if (line == "end") return
    words = split(line, word, " ")
    split("", image); split("", took_edge)
    if (word[1] == "step") take_images(words)
    if (line !~ /^gp2-trace/) note_place(line, word[1] == "step" ? rule_name[now] : "")
    if (word[1] == "step") {
      begin_step()
      steps++
      draw_into(sprintf("step %03d", steps), "step " steps ": " rule_name[now])
      make_step()
    } else if (word[1] == "back" && word[2] > 0) {
      take_back(word[2])
    } else if (line ~ /^gp2-trace [12]$/) {
      version = substr(line, 11) + 0
    } else if (line !~ /^(turn|back 0)$/) die("no trace: " line)
  }
  die(version ? "no trace: its `end` is missing" : "no trace: there is nothing in it")
}

function check_result(   line, key) {
  if ((getline line) <= 0) die("no result stands behind the trace")
  if (line == "fail") return "fail"
  printed_lines()
  while ((getline line) > 0) {
    if (line == "]" || line == "|") continue
    key = line
    sub(/^  \(e[0-9]+, /, "", key)
    if (!(key in seen) || --seen[key] < 0) die("the steps lead to another graph: " line)
  }
  for (key in seen) if (seen[key] > 0) die("the steps lead to another graph: nothing is printed for " key)
  return "result"
}

# On standard output, or in a file of the folder.
function draw_into(name, caption,   file) {
  if (places != "") return
  file = name; gsub(/ /, "-", file)
  if (folder != "") dot_file = folder "/" file ".dot"
  draw(name, caption)
}

BEGIN {
  name_of_script = "journal-to-dot"
  program = ENVIRON["PROGRAM"]; host = ENVIRON["HOST"]; folder = ENVIRON["FOLDER"]; places = ENVIRON["PLACES"]
  begin_host()
  read_tokens(program); read_rules()
  read_printed()
  split("", image); split("", took_edge)
  last = check_result()
  note_place("end", last == "fail" ? "fail" : "")
  draw_into("step result", last == "fail" ? "fail, at this graph" : "the result")
  if (places != "") draw_places()
}
