# Makes one HTML page of the places of a run and the picture of all its graphs, as `journal-to-dot --places` and `dot -Tsvg`
# write them. The page has scripts/lib/page.css and scripts/lib/page.js in it.

function html(text) { gsub(/&/, "\\&amp;", text); gsub(/</, "\\&lt;", text); gsub(/>/, "\\&gt;", text); gsub(/"/, "\\&quot;", text); return text }

# A string of JavaScript. No `<` stands in it, so no label ends the script.
function string(text) { gsub(/\\/, "&&", text); gsub(/"/, "\\\"", text); gsub(/</, "\\u003c", text); return "\"" text "\"" }

# What an item means, for readers who do not know journals.
function note(item, rule,   word, count) {
  split(item, word, " ")
  if (word[1] == "step") return "next: a step of the rule " rule "; what it matches is bold"
  if (word[1] == "turn") return "next: a turn of a loop begins"
  count = word[2] + 0
  if (word[1] == "back")
    return "next: what was tried is undone (" (count == 0 ? "it made no step" : count == 1 ? "the last step" : "the last " count " steps") ")"
  return rule == "fail" ? "the program failed, at this graph" : "the result"
}

# A line of the list: of a step the rule's name, and what it matches.
function line_of_item(item, rule,   words) {
  if (item !~ /^step /) return "<li data-item=\"" item "\" data-note=\"" html(note(item, rule)) "\">" item "</li>"
  words = item; sub(/^step [0-9]+ /, "", words)
  return "<li data-item=\"" item "\" data-rule=\"" rule "\" data-note=\"" html(note(item, rule)) "\"><b>" rule "</b> " words "</li>"
}

function die_of(file) { die("cannot read " file) }

function write_file(file, is_html,   line, got) {
  while ((got = (getline line <file)) > 0) print is_html ? html(line) : line
  if (got < 0) die_of(file)
  close(file)
}

# A look: its mark, whether it is a root, whether the next item matches it, and its label.
function take_look(number, mark, is_root, is_matched, label) {
  classes_of[number] = mark (is_root ? (mark == "" ? "" : " ") "root" : "") (is_matched ? (mark == "" && !is_root ? "" : " ") "matched" : "")
  label_of[number] = label; looks = number
}

function read_places(file,   line, got, part, change) {
  change = ""
  while ((got = (getline line <file)) > 0) {
    split(line, part, "\t")
    if (part[1] == "look") take_look(part[2], part[3], part[4], part[5], part[6])
    else if (part[1] == "looks") {
      change = change (change == "" ? "" : ",") "\"" part[2] "\"," part[3]
      if (places == 0) first_look[part[2]] = part[3]
    } else { place_line[++places] = line_of_item(part[2], part[3]); place_change[places] = change; change = "" }
  }
  if (got < 0) die_of(file)
  close(file)
}

# The picture: from <svg to </svg>, as it is at the first place.
function write_picture(file,   line, inside, name, number) {
  inside = 0
  while ((getline line <file) > 0) {
    if (line ~ /^<svg/) inside = 1
    if (!inside || line ~ /^<!--.*-->$/ || line ~ /^<title>run<\/title>$/) continue
    if (match(line, /^<g id="[^"]*" class="(node|edge)">$/)) {
      split(line, name, "\""); number = (name[2] in first_look) ? first_look[name[2]] : 0
      line = "<g id=\"" name[2] "\" class=\"" name[4] (number == 0 ? " gone" : classes_of[number] == "" ? "" : " " classes_of[number]) "\">"
    } else if (line ~ /^<text / && number > 0) {
      sub(/>[^<]*<\/text>$/, ">", line); line = line html(text_of(name[2], label_of[number])) "</text>"
    }
    print line
    if (line ~ /^<\/svg>/) inside = 0
  }
  close(file)
}
function text_of(name, label) { return name !~ /^n/ ? label : label == "" ? name : name ": " label }

function write_script(   i) {
  print "<script>"
  print "const looks = [\n{classes: \"gone\", label: \"\"},"
  for (i = 1; i <= looks; i++) print "{classes: \"" classes_of[i] "\", label: " string(label_of[i]) "},"
  print "];\nconst changes = ["
  for (i = 1; i <= places; i++) print "[" place_change[i] "],"
  print "];"
  write_file(ENVIRON["PARTS"] "/page.js", 0)
  print "</script>"
}

BEGIN {
  name_of_script = "run-to-html"
  title = html(ENVIRON["TITLE"])
  read_places(ENVIRON["PLACES"])
  print "<!DOCTYPE html>\n<html lang=\"en\">\n<head>\n<meta charset=\"utf-8\">"
  print "<meta name=\"viewport\" content=\"width=device-width, initial-scale=1\">"
  print "<title>" title "</title>"
  print "<style>"
  write_file(ENVIRON["PARTS"] "/page.css", 0)
  print "</style>\n</head>\n<body>"
  print "<header><h1>" title "</h1> <span id=\"at\"></span>"
  print "<span class=\"moves\"><button data-key=\"Home\" title=\"Home\">|&lt;</button> <button data-key=\"ArrowLeft\" title=\"arrow left\">&lt;</button>"
  print "<button data-key=\"ArrowRight\" title=\"arrow right\">&gt;</button> <button data-key=\"End\" title=\"End\">&gt;|</button></span>"
  print "<span class=\"search\"><input type=\"search\" id=\"search\" placeholder=\"rule, n0 or label\" title=\"search for a rule or a node (key /)\"> <span id=\"found\"></span></span>"
  print "</header>\n<main>"
  write_picture(ENVIRON["PICTURE"])
  print "<p id=\"empty\" class=\"gone\">(a graph without nodes)</p>"
  print "<p id=\"item\"></p>\n<p id=\"note\"></p>"
  print "<noscript><p>The graph is that of the beginning: without JavaScript the page shows no other.</p></noscript>"
  print "<details><summary>the program</summary><pre>"
  write_file(ENVIRON["PROGRAM"], 1)
  print "</pre></details>\n</main>"
  print "<nav id=\"journal\"><ol id=\"places\" start=\"0\">"
  for (i = 1; i <= places; i++) print place_line[i]
  print "</ol></nav>"
  write_script()
  print "</body>\n</html>"
}
