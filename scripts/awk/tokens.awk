# Cuts the text of a program, a host or a result into tokens: token[1], .. token[tokens]. No string and no sign goes over a
# line's end, so lines are cut one by one; `in_comment` says that a /* comment goes on.

# The text without the token at its head, which `head` keeps.
function cut(text,   rest) {
  if (match(text, /^[ \t\r]+/)) { head = ""; return substr(text, RLENGTH + 1) }
  if (text ~ /^\/\//) { head = ""; return "" }
  if (text ~ /^\/\*/) { head = ""; in_comment = 1; return substr(text, 3) }
  if (match(text, /^"[^"]*"/) || match(text, /^[A-Za-z0-9_]+/) || match(text, /^(<=|>=|!=|=>)/)) head = substr(text, 1, RLENGTH)
  else head = substr(text, 1, 1)
  return substr(text, length(head) + 1)
}

function cut_line(text) {
  while (text != "") {
    if (in_comment) {
      if (!match(text, /\*\//)) return
      in_comment = 0
      text = substr(text, RSTART + 2)
      continue
    }
    text = cut(text)
    if (head != "") token[++tokens] = head
  }
}

# Reads all tokens of a file.
function read_tokens(file,   line, got) {
  tokens = 0; in_comment = 0
  while ((got = (getline line < file)) > 0) cut_line(line)
  if (got < 0) die("cannot read " file)
  close(file)
}

function die(why) { print name_of_script ": " why > "/dev/stderr"; failed = 1; exit 1 }
