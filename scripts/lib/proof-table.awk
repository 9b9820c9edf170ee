# Prints CONTRIBUTING.md with the table of the crates' seconds as scripts/proof-seconds has them, the longest first.
#   awk -f scripts/lib/proof-table.awk scripts/proof-seconds CONTRIBUTING.md
function row_of(at) { return "| `" name[at] "` | " proof[at] " | " tests[at] " | " edits[at] " | " proof[at] + tests[at] + edits[at] " |" }
function print_rows(   at, best, k) {
  for (at = 1; at <= crates; at++) {
    best = 0
    for (k = 1; k <= crates; k++) if (!(k in is_printed) && (best == 0 || proof[k] + tests[k] + edits[k] > proof[best] + tests[best] + edits[best])) best = k
    is_printed[best] = 1
    print row_of(best)
  }
}
FNR == NR { if ($0 !~ /^#/ && NF == 4) { name[++crates] = $1; proof[crates] = $2; tests[crates] = $3; edits[crates] = $4 } next }
/^\| crate \| proof \| tests \| edits \| all \|$/ { print; in_table = 1; next }
in_table && /^\|---/ { print; print_rows(); next }
in_table && /^\|/ { next }
{ in_table = 0; print }
