# What the scripts that turn data into hosts and graphs into data share: names, atoms, lists and marks as hosts have them,
# and refusals. A list is its atoms with a tab between each two; a string keeps its quotation marks.

# Ends the script with one line on standard error: where it is, and what cannot be said. `advice` is what can be done.
function refuse(where, what) { print name_of_script ": " (where == "" ? "" : where ": ") what advice >"/dev/stderr"; exit 1 }

# A text as a refusal shows it: on one line, with `?` for what is no character of 32 to 126, and not for long.
function told(text) {
  gsub(/[\001-\037\177]/, "?", text) # a letter that is not ASCII is shown as it is
  return "`" (length(text) > 60 ? substr(text, 1, 60) ".." : text) "`"
}

# A name is a word that is not reserved, or a number, which is at most 2^127.
function is_name(text) {
  if (text ~ /^[0-9]+$/) return !is_less("170141183460469231731687303715884105728", trimmed(text))
  return text ~ /^[A-Za-z0-9_]+$/ && !is_reserved(text)
}

# An integer as the program prints it: other texts of digits, as `007`, are strings in a column without types.
function is_integer(text) { return text ~ /^(0|-?[1-9][0-9]*)$/ }

function is_in_range(number,   limit, size) {
  limit = "170141183460469231731687303715884105728"; size = magnitude(number)
  return is_less(size, limit) || (number ~ /^-/ && size == limit)
}

function check_range(number, where) {
  if (length(number) > 38 && !is_in_range(number)) refuse(where, told(number) " does not fit into 128 bits")
}

function check_string(text, where) {
  if (text ~ /^[ !#-~]*$/) return
  if (text ~ /"/) refuse(where, "a quotation mark in " told(text) ": a string in a host cannot contain one")
  if (text ~ /[^ -~]/) refuse(where, "a character outside 32 to 126 in " told(text) ": a string in a host cannot contain one")
}

function integer_atom(text, where) { check_range(text, where); return text }
function string_atom(text, where) { check_string(text, where); return "\"" text "\"" }
function plain_atom(text, where) { return is_integer(text) ? integer_atom(text, where) : string_atom(text, where) }

function longer(list, atom) { return list == "" ? atom : list "\t" atom }

# The list of the tokens `first` to `last`, which have to be a list as hosts have it.
function list_of_tokens(first, last, where,   at, list, sign) {
  if (first == last && token[first] == "empty") return ""
  for (at = first; ; at++) {
    sign = ""
    if (token[at] == "-" && at < last) { sign = "-"; at++ }
    if (at > last || !(token[at] ~ /^[0-9]+$/ || (sign == "" && token[at] ~ /^"[^"]*"$/))) return "no list"
    if (token[at] ~ /^"/) check_string(substr(token[at], 2, length(token[at]) - 2), where)
    else check_range(sign trimmed(token[at]), where)
    if (at == last) break
    if (token[++at] != ":") return "no list"
  }
  return atoms(first, last)
}

# The list that a text says as a host would.
function said_list(text, where,   list) {
  if (text ~ /[^ -~\t\r\n]/) check_string(text, where)
  tokens = 0; in_comment = 0; cut_line(text)
  list = in_comment ? "no list" : list_of_tokens(1, tokens, where)
  if (list == "no list") refuse(where, told(text) " is not a list in the notation of hosts")
  return list
}

function check_mark(kind, mark, where) {
  if (mark != "" && mark !~ (kind == "node" ? "^(red|green|blue|grey)$" : "^(red|green|blue|dashed)$"))
    refuse(where, told(mark) " is not a mark for " (kind == "node" ? "a node" : "an edge"))
  return mark
}

function is_root(text, where,   word) {
  word = tolower(text)
  if (word ~ /^(true|1)$/) return 1
  if (word !~ /^(false|0)?$/) refuse(where, told(text) " should say whether the node is a root, but is neither true nor false")
  return 0
}

# ---- a host that is made: nodes and edges by numbers from 0, and at the end its text

# Adds a node by what the data call it; where no list is set that is its label, too.
function new_node(id, where) {
  if (id == "") refuse(where, "a node without a name")
  if (id in number_of) refuse(where, "a second node " told(id))
  number_of[id] = made_nodes; id_of[made_nodes] = id; place_of[made_nodes] = where
  return made_nodes++
}

# A node with its list is one text, which takes less time than a place for each of its parts; so is an edge.
function set_node(i, list, mark, root) { made_node[i] = (root ? "(R)" : "") ", " after_list(list, mark) }
function set_node_without_list(i, mark, root) { mark_of[i] = mark; root_of[i] = root }

function node_of(id, where) {
  if (!(id in number_of)) refuse(where, "there is no node " told(id))
  return number_of[id]
}

function new_edge(source, target, list, mark) { made_edge[made_edges++] = source "\t" target "\t" after_list(list, mark) }

function after_list(list, mark) { return shown(list) (mark == "" ? ")" : " # " mark ")") }

# What the data call a node is its name where a host can have that name; else it is called nK, K its number.
function rename_nodes(   i, k, taken) {
  for (i = 0; i < made_nodes; i++) if (!is_name(id_of[i])) break
  if (i == made_nodes) return
  for (k = 0; k < made_nodes; k++) if (is_name(id_of[k])) taken[id_of[k]] = 1
  for (; i < made_nodes; i++) {
    if (is_name(id_of[i])) continue
    id_of[i] = "n" i
    while (id_of[i] in taken) id_of[i] = id_of[i] "_"
    taken[id_of[i]] = 1
  }
}

function write_host(   i, part) {
  advice = " (the label of a node is its name, unless --node-label says otherwise)"
  for (i = 0; i < made_nodes; i++)
    if (!(i in made_node)) set_node(i, plain_atom(id_of[i], place_of[i]), mark_of[i], root_of[i])
  advice = ""
  rename_nodes()
  print "["
  for (i = 0; i < made_nodes; i++) print "  (" id_of[i] made_node[i]
  print "|"
  for (i = 0; i < made_edges; i++) {
    split(made_edge[i], part, "\t")
    print "  (e" i ", " id_of[part[1]] ", " id_of[part[2]] ", " part[3]
  }
  print "]"
}

function plain_text(atom) { return atom ~ /^"/ ? substr(atom, 2, length(atom) - 2) : atom }

# The names in an option with commas between them, in names[1 ..]; none may be one of those that have a meaning here.
function split_names(text, names, fixed, option,   count, i, seen) {
  count = text == "" ? 0 : split(text, names, ",")
  for (i = 1; i <= count; i++) {
    if (names[i] == "" || names[i] ~ fixed) refuse("", option ": " told(names[i]) " cannot be the name of a column of labels")
    if (names[i] in seen) refuse("", option ": " told(names[i]) " stands twice")
    seen[names[i]] = 1
  }
  return count
}
