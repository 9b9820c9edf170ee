# Reads and writes tables as CSV: one line for a row, cells between commas; a cell in quotation marks may hold commas, line
# ends and, doubled, quotation marks. Spaces belong to the cell. `separator` is what stands between cells.

# The next row into cells[1 .. ]; how many, or 0 where there is none. Empty lines are passed over.
function read_row(file, cells,   line, got, count, cell) {
  do {
    if ((got = (getline line <file)) < 0) refuse("", "cannot read " told(file))
    if (got == 0) { close(file); return 0 }
    row_line = ++file_line
    if (file_line == 1) sub(/^\357\273\277/, "", line)
    sub(/\r$/, "", line)
  } while (line == "")
  if (line !~ /"/) return split(line, cells, splits_at)
  for (count = 1; ; count++) {
    if (line ~ /^"/) {
      cell = ""; line = substr(line, 2)
      while (!match(line, /^[^"]*"/) || substr(line, RLENGTH + 1, 1) == "\"") {
        if (match(line, /^[^"]*""/)) { cell = cell substr(line, 1, RLENGTH - 1); line = substr(line, RLENGTH + 1); continue }
        cell = cell line "\n"
        if ((getline line <file) <= 0) refuse(file_name ", line " row_line, "a quotation mark is not closed")
        file_line++
        sub(/\r$/, "", line)
      }
      cells[count] = cell substr(line, 1, RLENGTH - 1); line = substr(line, RLENGTH + 1)
      if (line != "" && substr(line, 1, 1) != separator) refuse(file_name ", line " row_line, "something follows the closing quotation mark of a cell")
    } else {
      got = index(line, separator)
      cells[count] = got ? substr(line, 1, got - 1) : line
      line = got ? substr(line, got) : ""
    }
    if (line == "") return count
    line = substr(line, 2)
  }
}

# Begins a table, whose columns are named by its first line or by `names`: column[name] is its place.
function begin_table(file, names,   cells, count, i) {
  file_line = 0; file_name = file == "-" ? "standard input" : file
  split("", column); split("", column_twice); columns_told = ""
  if (names != "") columns = split(names, cells, ",")
  else columns = read_row(file, cells)
  if (columns == 0) refuse(file_name, "there is no line with the names of the columns")
  for (i = 1; i <= columns; i++) {
    if (cells[i] in column) column_twice[cells[i]] = 1
    column[cells[i]] = i
    columns_told = columns_told (i == 1 ? "" : " ") told(cells[i])
  }
}

function wanted_column(name) {
  if (!(name in column)) refuse(file_name, "there is no column " told(name) " among " columns_told \
    (columns == 1 && columns_told ~ /;/ ? " (if a semicolon stands between columns: --separator ';')" : ""))
  return taken_column(name)
}

# The place of a column that may be missing, or 0.
function taken_column(name) {
  if (name in column_twice) refuse(file_name, "two columns are named " told(name))
  return name in column ? column[name] : 0
}

function next_row(file, cells,   count) {
  count = read_row(file, cells)
  where_row = file_name ", line " row_line
  if (count != 0 && count != columns) refuse(where_row, count (count == 1 ? " cell" : " cells") ", but there are " columns " columns")
  return count
}

function csv(text) {
  if (index(text, separator) == 0 && text !~ /["\n\r]|^ | $/) return text
  gsub(/"/, "\"\"", text)
  return "\"" text "\""
}
