# Makes of rows of scripts/rows what scripts/check-rows runs and compares. `room` is a folder that has, for each run, a folder
# of its number, and one `wanted`, in whose NUMBER.status, NUMBER.out and NUMBER.err stands what is wanted; where another answer
# is as good, it stands in `others`. Prints for each run its number, the file and the line of its row, and the words of gp2.
# What stands between backquotes is written out as crates/gp_rows/src/rows.rt says.

function hexadecimal(two) { return index("0123456789abcdef", substr(two, 1, 1)) * 16 + index("0123456789abcdef", substr(two, 2, 1)) - 17; }

# A text so many times: % is the number of the copy and ^ the one after it; & is how many are left with it, and $ without it.
function copies(count, piece,    copy, one, all) {
  all = "";
  for (copy = 0; copy < count; copy++) {
    one = piece;
    gsub(/%/, copy, one); gsub(/\^/, copy + 1, one); gsub(/[$]/, count - copy - 1, one); gsub(/&/, count - copy, one);
    all = all one;
  }
  return all;
}

function word_of(word) {
  if (word == "") return "";
  if (word == "n") return "\n";
  if (word == "t") return "\t";
  if (word == "r") return "\r";
  if (word ~ /^x[0-9a-f][0-9a-f]$/) return sprintf("%c", hexadecimal(substr(word, 2)));
  if (word ~ /^[0-9]+\*/) return copies(substr(word, 1, index(word, "*") - 1) + 0, substr(word, index(word, "*") + 1));
  if (word in named) return named[word];
  wrong("an unknown word between backquotes: " word);
}

function expanded(text,    pieces, count, i, all) {
  count = split(text, pieces, "`");
  if (count % 2 == 0) wrong("a backquote without a second one");
  all = "";
  for (i = 1; i <= count; i++) all = all (i % 2 ? pieces[i] : word_of(pieces[i]));
  return all;
}

function wrong(why) { print "check-rows: " FILENAME " line " FNR ": " why > "/dev/stderr"; exit 1; }
function put(file, text) { printf "%s", text > (room "/" file); close(room "/" file); }
function file(name, text) { put(number "/" name, text); }

# What the program is to print, and the status with which it is to end.
function wants(status, out, err) {
  put(place ".status", status "\n"); put(place ".out", out); put(place ".err", err);
  return status;
}

# The same of a text such as `1 out`, a line feed, and what is on standard output but for its last line feed.
function shows(text,    at) {
  at = index(text, "\n");
  if (at == 0) return wants(text, "", "");
  if (substr(text, at - 3, 3) == "out") return wants(substr(text, 1, at - 5), substr(text, at + 1) "\n", "");
  return wants(substr(text, 1, at - 5), "", substr(text, at + 1) "\n");
}

# The same of several such texts, of which each is right.
function shows_one(texts,    count, i, all) {
  count = split(texts, all, " or else ");
  for (i = 2; i <= count; i++) { place = "others/" number "." i; shows(all[i]); }
  place = "wanted/" number; shows(all[1]);
}

# A run of these words behind those of the row, with files of these names, each of one letter.
function run(names, words, answer,    i) {
  print_run(field[1] words);
  for (i = 1; i <= length(names); i++) file(substr(names, i, 1), field[i + 1]);
  shows_one(answer);
}

function print_run(words) { number++; place = "wanted/" number; print number "\t" FILENAME "\t" FNR "\t" words; }

# A program is read before a journal; so a journal that is none is told where the program has no fault.
function fault(program, line) {
  print_run("check p h t r"); file("p", program); file("h", "[ | ]"); file("t", "");
  line == "" ? wants(10, "", "trace: Line 1\n") : wants(3, "", line);
}

function format(text, answer) {
  print_run("fmt p"); file("p", text);
  if (answer != "" && answer !~ /\n$/) return wants(3, "", "program: " answer "\n");
  put("wanted/" number ".again", answer);
  return wants(0, answer, "");
}

function derivation(answer) {
  print_run("check p h t r"); file("p", field[1]); file("h", field[2]); file("t", field[3]); file("r", field[4]);
  return answer == "derivation" ? wants(0, "derivation\n", "") : wants(1, "no derivation\n", "");
}

function script(answer) {
  print_run("step p h s --bound 1000"); file("p", field[1]); file("h", field[2]); file("s", field[3]);
  return answer ~ /^Line [0-9]+$/ ? wants(11, "", "script: " answer "\n") : wants(0, answer, "");
}

function crews(names, words, answer,    count, i, all) {
  count = split(words, all, ",");
  for (i = 1; i <= count; i++) run(names, all[i], answer);
}

function try_row(answer) {
  if (kind ~ /^rules_/) return fault("Main = skip " field[1], answer == "accepted" ? "" : "program: rule r: " answer "\n");
  if (kind ~ /^scopes_/) return fault(field[1], answer == "accepted" ? "" : "program: " answer "\n");
  if (kind == "lines" || kind == "bytes") return fault(field[1], answer);
  if (kind == "formats") return format(field[1], answer);
  if (kind == "derivations") return derivation(answer);
  if (kind == "scripts") return script(answer);
  if (kind == "runs" || kind == "refusals" || kind == "why") return run("ph", "", answer);
  if (kind == "checks") return run("phtr", "", answer);
  if (kind == "steps") return run("phs", "", answer);
  if (kind == "texts") return run("p", "", answer);
  if (kind == "demos") return crews("", " --workers 1 --fan 64, --workers 4 --fan 1, --workers 4 --fan 1 --batch 8", answer);
  if (kind == "crewed")
    return crews("ph", ", --workers 2, --workers 2 --fan 1, --workers 3 --fan 1, --workers 4 --fan 1, --workers 4 --fan 1 --batch 8, --workers 2 --batch 64", answer);
  wrong("no kind of rows");
}

FNR == 1 { split("", named); kind = FILENAME; sub(/^.*\//, "", kind); sub(/\.rows$/, "", kind); }
/^$/ || /^\/\// { next; }
/^`let / {
  line = substr($0, 6); at = index(line, "` ");
  if (at == 0) wrong("no definition");
  named[substr(line, 1, at - 1)] = expanded(substr(line, at + 2));
  next;
}
{
  split("", field); row = expanded($0); rows++;
  for (count = 1; (at = index(row, " @ ")) > 0; count++) { field[count] = substr(row, 1, at - 1); row = substr(row, at + 3); }
  try_row(row);
}
END { print rows > (room "/count"); }
