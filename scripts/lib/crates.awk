# Reads crates.txt, and prints a line for each crate: its name, and the names of what it stands on. With `of`, only for that
# crate and those of the file that it stands on, each behind the ones that it stands on.
{ sub(/#.*/, "") }
/:/ { split($0, part, ":"); split(part[1], name, " "); below[name[1]] = part[2]; crate[++crates] = name[1] }
function tell(name) { gsub(/^ +| +$/, "", below[name]); print name (below[name] == "" ? "" : " " below[name]) }
function add(name,   i, count, list) {
  if (name in seen || !(name in below)) return
  seen[name] = 1
  count = split(below[name], list, " ")
  for (i = 1; i <= count; i++) add(list[i])
  tell(name)
}
END { if (of != "") add(of); else for (i = 1; i <= crates; i++) tell(crate[i]) }
