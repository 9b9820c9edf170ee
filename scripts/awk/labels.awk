# Values of labels. A list is its atoms with a tab between each two; a string keeps its quotation marks. `value[x]` is what
# the match gives to the variable x of the rule `now`. No step is decided here: the trace says which match was taken, so
# what is worked out is only what the match gives to variables, and what the right labels are then.

function joined(list, more) { return list == "" ? more : more == "" ? list : list "\t" more }
function inside(text) { return substr(text, 2, length(text) - 2) } # a string without its quotation marks
function closing(at,   depth) { # the bracket that closes the one at `at`
  for (; at <= tokens; at++) { depth += (token[at] == "("); depth -= (token[at] == ")"); if (depth == 0) return at }
  return tokens
}

# The parts of tokens[first .. last] between signs `sign` outside of brackets: their ends stand in begin[k], end[k] from the
# place `base`; brackets round a whole part are taken away. The number of parts is returned.
function parts(sign, first, last, base,   depth, at, count) {
  while (token[first] == "(" && closing(first) == last) { first++; last-- }
  count = 1; begin[base + 1] = first; depth = 0
  for (at = first; at <= last; at++) {
    if (token[at] == "(") depth++
    else if (token[at] == ")") depth--
    else if (token[at] == sign && depth == 0) { end[base + count] = at - 1; count++; begin[base + count] = at + 1 }
  }
  end[base + count] = last
  return count
}

# ---- the left side: what a label tells of its variables, given the list that it took

# Flattens a label into elements[1 ..], the ends of their tokens.
function flatten(sign, first, last, base,   count, i) {
  count = parts(sign, first, last, base)
  if (count == 1) { elements++; element_from[elements] = begin[base + 1]; element_to[elements] = end[base + 1]; return }
  for (i = 1; i <= count; i++) flatten(sign, begin[base + i], end[base + i], base + count)
}

function learn(first, last, list,   count, i, atom, at, spare, took) {
  elements = 0; flatten(":", first, last, 0)
  count = elements
  for (i = 1; i <= count; i++) { of_from[i] = element_from[i]; of_to[i] = element_to[i] }
  spare = (list == "" ? 0 : split(list, atom, "\t"))
  for (i = 1; i <= count; i++) if (!is_list(of_from[i], of_to[i])) spare--
  at = 0
  for (i = 1; i <= count; i++) {
    if (token[of_from[i]] == "empty") continue
    if (is_list(of_from[i], of_to[i])) {
      took = ""
      while (spare > 0) { took = joined(took, atom[++at]); spare-- }
      value[token[of_from[i]]] = took
    } else learn_atom(of_from[i], of_to[i], atom[++at])
  }
}

# Whether an element takes a number of atoms of its own choice: a list variable, or `empty`, which takes none.
function is_list(first, last) { return first == last && (token[first] == "empty" || type_of[now, token[first]] == "list") }

function learn_atom(first, last, atom,   count, i, text, spare, width, name) {
  if (first == last) { if ((now, token[first]) in type_of) value[token[first]] = atom; return }
  elements = 0; flatten(".", first, last, 0)
  if (elements == 1) return # a number with its sign
  text = inside(atom); spare = length(text)
  for (i = 1; i <= elements; i++) spare -= width_of(i)
  for (i = 1; i <= elements; i++) {
    name = token[element_from[i]]
    width = type_of[now, name] == "string" ? spare : width_of(i)
    if ((now, name) in type_of) value[name] = "\"" substr(text, 1, width) "\""
    text = substr(text, width + 1)
  }
}

function width_of(i,   text) {
  text = token[element_from[i]]
  return text ~ /^"/ ? length(inside(text)) : type_of[now, text] == "char" ? 1 : 0
}

# ---- the right side: the list that a label is, by one function for each kind of sign, the loosest first

function list_of(first, last) { cursor = first; return list_here() }

function list_here(   list) {
  list = string_here()
  while (token[cursor] == ":") { cursor++; list = joined(list, string_here()) }
  return list
}

function string_here(   text) {
  text = sum_here()
  while (token[cursor] == ".") { cursor++; text = "\"" inside(text) inside(sum_here()) "\"" }
  return text
}

function sum_here(   number, sign, more) {
  number = product_here()
  while (token[cursor] == "+" || token[cursor] == "-") {
    sign = token[cursor++]
    more = product_here()
    number = plus(number, sign == "+" ? more : negated(more))
  }
  return number
}

function product_here(   number, sign, more) {
  number = factor_here()
  while (token[cursor] == "*" || token[cursor] == "/") {
    sign = token[cursor++]
    more = factor_here()
    number = sign == "*" ? times(number, more) : quotient(number, more)
  }
  return number
}

function factor_here(   text, name, list, atom) {
  text = token[cursor++]
  if (text == "-") return negated(factor_here())
  if (text == "(") { list = list_here(); cursor++; return list }
  if (text == "empty") return ""
  if (text == "indeg" || text == "outdeg" || text == "length") {
    name = token[cursor + 1]; cursor += 3
    if (text == "length") return length_of(name)
    return (text == "indeg" ? in_degree[image[name]] : out_degree[image[name]]) ""
  }
  if (text ~ /^[0-9]+$/) { sub(/^0+/, "", text); return text == "" ? "0" : text }
  return text ~ /^"/ ? text : value[text]
}

function length_of(name,   list, type, atom) {
  list = value[name]; type = type_of[now, name]
  if (type == "list") return list == "" ? 0 : split(list, atom, "\t")
  return list ~ /^"/ ? length(inside(list)) : 1
}
