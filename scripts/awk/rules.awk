# Reads the rules of a program from its tokens: rules counted from 0 in the order of the text, as in a trace. Kept of each
# rule r are its name, the types of its variables, and both sides with the places of their labels' tokens:
#   rule_name[r], type_of[r, variable], in_interface[r, name]
#   size[r, side, "nodes"], part[r, side, "node", i, WHAT] and so for edges, where side is 0 (left) or 1 (right) and WHAT
#   is name, root, mark, from, to, and of edges both, source and target.

function is_word(text) { return text ~ /^[A-Za-z0-9_]+$/ && text ~ /[A-Za-z_]/ }

function is_reserved(text) {
  return text ~ /^(interface|where|empty|not|and|or|edge|indeg|outdeg|length|int|char|string|atom|list|if|then|else|try|skip|fail|break)$/
}

# A rule's declaration is the only place outside of one where a bracket follows a name in lower case.
function read_rules(   at) {
  rules = 0
  for (at = 1; at < tokens; )
    if (token[at] ~ /^[a-z]/ && is_word(token[at]) && !is_reserved(token[at]) && token[at + 1] == "(") at = read_rule(at)
    else at++
}

function read_rule(at,   r) {
  r = rules++
  rule_name[r] = token[at]
  at = read_variables(r, at + 2)
  at = read_graph(at); keep_side(r, 0)
  if (token[at] != "=>") die("no program: `=>` is missing in rule " rule_name[r])
  at = read_graph(at + 1); keep_side(r, 1)
  for (at += 3; at <= tokens && token[at] != "}"; at++) if (token[at] != ",") in_interface[r, token[at]] = 1
  return at + 1
}

# The variables' declaration, from behind `(` to behind `)`.
function read_variables(r, at,   waiting, i, type) {
  waiting = 0
  for (; at <= tokens && token[at] != ")"; at++) {
    if (token[at] == ":") { type = token[++at]; while (waiting > 0) type_of[r, held[waiting--]] = type }
    else if (token[at] != "," && token[at] != ";") held[++waiting] = token[at]
  }
  return at + 1
}

function keep_side(r, side,   i) {
  size[r, side, "nodes"] = node_count; size[r, side, "edges"] = edge_count
  for (i = 0; i < node_count; i++) {
    part[r, side, "node", i, "name"] = node[i]; part[r, side, "node", i, "root"] = root[i]
    part[r, side, "node", i, "mark"] = mark[i]
    part[r, side, "node", i, "from"] = from[i]; part[r, side, "node", i, "to"] = to[i]
  }
  for (i = 0; i < edge_count; i++) {
    part[r, side, "edge", i, "name"] = edge[i]; part[r, side, "edge", i, "both"] = both[i]
    part[r, side, "edge", i, "source"] = source[i]; part[r, side, "edge", i, "target"] = target[i]
    part[r, side, "edge", i, "mark"] = edge_mark[i]
    part[r, side, "edge", i, "from"] = edge_from[i]; part[r, side, "edge", i, "to"] = edge_to[i]
  }
}
