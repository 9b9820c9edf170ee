# Reads XML, one piece after another: a tag with the text behind it. A piece that was read stands in
#   tag            its name without the prefix of a namespace, with `/` before it where it closes an element
#   is_closed      whether the element has no content, as <node/>
#   attribute[x]   the value of each attribute
#   behind         the text behind it, up to the next tag
# Comments, instructions and a simple DOCTYPE are passed over, and CDATA is text. `xml_line` is the line of the tag's end.

function read_xml(file) {
  xml_file = file; xml_name = file == "-" ? "standard input" : file; xml_next = 1; xml_here = 0; depth = 0
  RS = "<"
  if ((getline piece <file) <= 0) refuse(xml_name, "cannot be read, or is empty")
  sub(/^\357\273\277/, "", piece)
  if (piece !~ /^[ \t\r\n]*$/) refuse(xml_name, "not XML: it begins with " told(piece))
  xml_next = 1 + lines_in(piece)
}

function lines_in(text) { return text ~ /\n/ ? gsub(/\n/, "\n", text) : 0 }
function xml_place() { return xml_name ", line " xml_line }

# The next raw piece, from behind `<` to before the next `<`.
function raw_piece() {
  if (is_put_back) { is_put_back = 0; piece = put_back; xml_line = xml_next }
  else if ((getline piece <xml_file) <= 0) return 0
  else xml_line = xml_next
  xml_next += lines_in(piece)
  return 1
}

# The most frequent element, `<data key="..">text</data>` without references: its key is in `data_key`, its text in `behind`,
# and the next tag is read ahead. If another one comes, 0 is returned, and nothing was read.
function next_simple_data(   rest, kept) {
  if (!xml_waiting || !match(piece, /^data key="[^"&]*">/) || index(piece, "&")) return 0
  kept = piece; rest = RLENGTH
  if ((getline piece <xml_file) <= 0) return 0
  if (piece !~ /^\/data>[ \t\r\n]*$/) {
    put_back = piece; is_put_back = 1; piece = kept
    return 0
  }
  data_key = substr(kept, 11, rest - 12); behind = substr(kept, rest + 1)
  tag = "data"; tag_line = xml_line
  xml_next += lines_in(piece)
  piece = ""; text_behind()
  return 1
}

# What begins with `opening` and goes on to `closing`, over any `<` in it; what stands behind it stays in `piece`.
function passed_over(opening, closing,   text, at) {
  text = substr(piece, length(opening) + 1)
  while (!(at = index(text, closing))) {
    if ((getline piece <xml_file) <= 0) refuse(xml_place(), "not XML: " told("<" opening) " has no end")
    xml_next += lines_in(piece)
    text = text "<" piece
  }
  piece = substr(text, at + length(closing))
  return substr(text, 1, at - 1)
}

# Text as it stands in XML, with what its references stand for.
function decoded(text,   made, at, name) {
  if (!index(text, "&")) return text
  while (at = index(text, "&")) {
    made = made substr(text, 1, at - 1); text = substr(text, at + 1)
    at = index(text, ";")
    if (!at) refuse(xml_place(), "not XML: an `&` that does not begin a reference")
    name = substr(text, 1, at - 1); text = substr(text, at + 1)
    made = made referred(name)
  }
  return made text
}

function referred(name,   code, i, digit) {
  if (name == "lt") return "<"
  if (name == "gt") return ">"
  if (name == "amp") return "&"
  if (name == "quot") return "\""
  if (name == "apos") return "'"
  code = 0
  if (name ~ /^#[0-9]+$/) code = substr(name, 2) + 0
  else if (name ~ /^#x[0-9A-Fa-f]+$/)
    for (i = 3; i <= length(name); i++) code = 16 * code + index("0123456789abcdef", tolower(substr(name, i, 1))) - 1
  else refuse(xml_place(), "not XML: the reference " told("&" name ";") " is not known")
  if (code < 1 || code > 1114111) refuse(xml_place(), "not XML: there is no character " told("&" name ";"))
  if (code < 128) return sprintf("%c", code)
  if (code < 2048) return sprintf("%c%c", 192 + int(code / 64), 128 + code % 64)
  if (code < 65536) return sprintf("%c%c%c", 224 + int(code / 4096), 128 + int(code / 64) % 64, 128 + code % 64)
  return sprintf("%c%c%c%c", 240 + int(code / 262144), 128 + int(code / 4096) % 64, 128 + int(code / 64) % 64, 128 + code % 64)
}

# The attributes at the head of `piece`, which then begins with the tag's `>` or `/>`.
function read_attributes(   name, value, at) {
  split("", attribute)
  while (match(piece, /^ [A-Za-z.]+="[^"&]*"/)) { # the most frequent form
    at = index(piece, "="); name = substr(piece, 2, at - 2)
    if (name in attribute) refuse(xml_place(), "not XML: two attributes " told(name))
    attribute[name] = substr(piece, at + 2, RLENGTH - at - 2); piece = substr(piece, RLENGTH + 1)
  }
  while (match(piece, /^[ \t\r\n]+[A-Za-z_:][-A-Za-z0-9_.:]*[ \t\r\n]*=[ \t\r\n]*("[^"]*"|'[^']*')/)) {
    value = substr(piece, 1, RLENGTH); piece = substr(piece, RLENGTH + 1)
    at = index(value, "=")
    name = substr(value, 1, at - 1); gsub(/[ \t\r\n]+/, "", name)
    value = substr(value, at + 1); sub(/^[ \t\r\n]+/, "", value)
    if (name in attribute) refuse(xml_place(), "not XML: two attributes " told(name))
    attribute[name] = decoded(substr(value, 2, length(value) - 2))
  }
  if (piece ~ /^[ \t\r\n]/) sub(/^[ \t\r\n]+/, "", piece)
}

# The text at the head, and what follows it as long as that is CDATA or a comment: all up to the next tag.
function text_behind(   made) {
  made = decoded(piece)
  while (xml_waiting = raw_piece()) {
    if (piece !~ /^[!?]/) break
    if (piece ~ /^!--/) { passed_over("!--", "-->"); made = made decoded(piece) }
    else if (piece ~ /^!\[CDATA\[/) { made = made passed_over("![CDATA[", "]]>"); made = made decoded(piece) }
    else if (piece ~ /^\?/) { passed_over("?", "?>"); made = made decoded(piece) }
    else break
  }
  return made
}

# The next tag; 0 at the end of the file, where all that was opened has to be closed.
function next_tag(   name) {
  if (!xml_here) { xml_here = 1; skip_prolog() }
  if (!xml_waiting) {
    if (depth > 0) refuse(xml_place(), "not XML: the file ends inside " told("<" opened[depth] ">"))
    return 0
  }
  if (match(piece, /^\/[A-Za-z]+>/)) { # the most frequent form
    name = substr(piece, 1, RLENGTH - 1); piece = substr(piece, RLENGTH + 1); is_closed = 0
  } else {
    if (!match(piece, /^\/?[A-Za-z_:][-A-Za-z0-9_.:]*/)) refuse(xml_place(), "not XML: " told("<" substr(piece, 1, 20)) " is not a tag")
    name = substr(piece, 1, RLENGTH); piece = substr(piece, RLENGTH + 1)
    read_attributes()
    is_closed = piece ~ /^\//
    if (piece !~ /^\/?>/ || (is_closed && name ~ /^\//)) refuse(xml_place(), "not XML: the tag " told("<" name) " does not end like a tag")
    piece = substr(piece, is_closed ? 3 : 2)
  }
  if (name ~ /^\//) {
    if (depth == 0 || opened[depth] != substr(name, 2)) refuse(xml_place(), "not XML: " told("<" name ">") " closes no open tag")
    depth--
  } else if (!is_closed) opened[++depth] = name
  tag = name
  if (tag ~ /:/) { sub(/^\/[^:]*:/, "/", tag); sub(/^[^\/:]*:/, "", tag) }
  tag_line = xml_line
  behind = text_behind()
  return 1
}

# What stands before the first tag.
function skip_prolog() {
  while (xml_waiting = raw_piece()) {
    if (piece ~ /^!--/) passed_over("!--", "-->")
    else if (piece ~ /^\?/) passed_over("?", "?>")
    else if (piece ~ /^!DOCTYPE[^[>]*>/) passed_over("!DOCTYPE", ">")
    else if (piece ~ /^!DOCTYPE/) refuse(xml_place(), "a DOCTYPE with declarations is not supported")
    else return
    if (piece !~ /^[ \t\r\n]*$/) refuse(xml_place(), "not XML: text before the first tag")
  }
}
