# Writes a host for scripts/measure, of the kind and the size that are asked for:
#   awk -v kind=grid -v size=100 -f scripts/measure.d/hosts.awk
# Nodes are named by their numbers from 0. In a kind with a root it is node 0, but where something else is said.

function node(name, is_root, label) { printf "  (%s%s, %s)\n", name, is_root ? "(R)" : "", label }
function edge(name, from_node, to_node, label) { printf "  (%s, %s, %s, %s)\n", name, from_node, to_node, label }
function nodes(count, root,   i) { print "["; for (i = 0; i < count; i++) node(i, i == root, "empty"); print "|" }
function next_edge(from_node, to_node) { edge("e" edges++, from_node, to_node, "empty") }
function to_next(count,   i) { for (i = 0; i + 1 < count; i++) next_edge(i, i + 1) }

function grid(side, root, label,   row, column) { # the square grid; node 0 has that label
  print "["
  for (row = 0; row < side * side; row++) node(row, row == root, row == 0 ? label : "empty")
  print "|"
  for (row = 0; row < side; row++)
    for (column = 0; column < side; column++) {
      if (column + 1 < side) next_edge(row * side + column, row * side + column + 1)
      if (row + 1 < side) next_edge(row * side + column, (row + 1) * side + column)
    }
}
function star(leaves, root, is_out,   i) { nodes(leaves + 1, root); for (i = 1; i <= leaves; i++) edge("e" i, is_out ? 0 : i, is_out ? i : 0, "empty") }
function binary_tree(count,   i) { nodes(count, 0); for (i = 1; i < count; i++) edge("e" i, int((i - 1) / 2), i, "empty") }
function ring(count,   i) { nodes(count, -1); for (i = 0; i < count; i++) next_edge(i, (i + 1) % count) }
function windmill(triangles, root,   i) { # triangles that share a node, and behind them an edge that leads away
  nodes(2 * triangles + 2, root)
  for (i = 0; i < triangles; i++) {
    edge("x" i, 0, 2 * i + 1, "empty"); edge("y" i, 2 * i + 1, 2 * i + 2, "empty"); edge("z" i, 2 * i + 2, 0, "empty")
  }
  edge("out", 0, 2 * triangles + 1, "empty")
}
function diamonds(count,   i) { # in a row, each with a dear way and a free one; the dear way is half as dear in the next
  nodes(3 * count + 1, 0)
  for (i = 0; i < count; i++) {
    edge("a" i, 3 * i, 3 * i + 1, sprintf("%.0f", 2 ^ (count - i))); edge("b" i, 3 * i + 1, 3 * i + 3, 0)
    edge("c" i, 3 * i, 3 * i + 2, 0); edge("d" i, 3 * i + 2, 3 * i + 3, 0)
  }
}
function random_graph(count, edges_wanted,   i, source) {
  srand(7); print "["; for (i = 0; i < count; i++) node(i, 0, int(rand() * 1000)); print "|"
  srand(11)
  for (i = 0; i < edges_wanted; i++) { source = int(rand() * count); next_edge(source, int(rand() * count)) }
}
function random_labels(count,   i, source, target) { # as many edges
  srand(7); print "["; for (i = 0; i < count; i++) node("n" i, 0, int(rand() * 1000)); print "|"
  for (i = 0; i < count; i++) {
    source = "n" int(rand() * count); target = "n" int(rand() * count)
    edge("e" i, source, target, int(rand() * 10))
  }
}

BEGIN {
  if (kind == "one_node") { print "[ (a, " size ") | ]"; exit }
  if (kind == "one_root") { print "[ (a(R), " size ") | ]"; exit }
  if (kind == "path") { nodes(size, 0); to_next(size) }
  else if (kind == "path_against") { nodes(size, size - 1); to_next(size) } # the root is at its end
  else if (kind == "grid") grid(int(sqrt(size)), 0, "empty") # of about so many nodes
  else if (kind == "red_grid") grid(size, -1, "empty # red") # of so many rows
  else if (kind == "isolated") nodes(size, -1)
  else if (kind == "star_out") star(size, 0, 1)
  else if (kind == "star_in") star(size, 0, 0)
  else if (kind == "star_plain") star(size, -1, 1)
  else if (kind == "binary_tree") binary_tree(size)
  else if (kind == "ring") ring(size)
  else if (kind == "windmill_rooted") windmill(size, 0)
  else if (kind == "windmill_plain") windmill(size, -1)
  else if (kind == "diamonds") diamonds(size)
  else if (kind == "random_graph") random_graph(size, more)
  else if (kind == "random_labels") random_labels(size)
  else { print "hosts.awk: no kind of hosts: " kind > "/dev/stderr"; exit 1 }
  print "]"
}
