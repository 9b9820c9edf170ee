/* Reads a host and prints its graph as gp2 prints it, in plain C: what gp2 is held against by `scripts/measure hosts`. It
   takes hosts that are spelled as gp2 prints them (labels without blanks, no positions), finds names in a table, and orders
   edges by source, target, mark and label. It is no part of the program. Build: cc -O2 -o read-and-print read-and-print.c */
#include <stdint.h>
#include <stdio.h>
#include <stdlib.h>
#include <string.h>

typedef struct { const char *at; uint32_t size; } Slice;
typedef struct { Slice label, mark; int root; } Node;
typedef struct { uint32_t source, target; Slice label, mark; } Edge;
typedef struct { Slice *names; uint32_t *places, count, size; } Table;

static const char *at;
static void fault(void) { fputs("read-and-print: no host of this form\n", stderr); exit(1); }
static void skip(void) { while (*at == ' ' || *at == '\n' || *at == '\t' || *at == '\r') at++; }
static void expect(char c) { skip(); if (*at++ != c) fault(); }
static int eat(char c) { skip(); if (*at != c) return 0; at++; return 1; }
static int is_word(char c) { return (c >= '0' && c <= '9') || (c >= 'a' && c <= 'z') || (c >= 'A' && c <= 'Z') || c == '_'; }
static Slice word(void) { skip(); const char *start = at; while (is_word(*at)) at++; if (at == start) fault(); return (Slice){start, at - start}; }
static Slice label(void) { /* up to a blank, a sign behind it, or its end; strings are passed over */
  skip(); const char *start = at;
  while (*at && *at != ' ' && *at != ')') if (*at++ == '"') { while (*at && *at != '"') at++; if (*at) at++; }
  return (Slice){start, at - start};
}
static Slice mark(void) { if (eat('#')) return word(); return (Slice){"", 0}; }

static void *grown(void *list, uint64_t count, size_t size) { /* room for one more */
  if (count & (count - 1)) return list;
  list = realloc(list, (count ? 2 * count : 1) * size); if (!list) exit(2); return list;
}
static uint32_t *slot(Table *t, Slice n) {
  uint64_t h = 1469598103934665603u;
  for (uint32_t i = 0; i < n.size; i++) h = (h ^ (unsigned char)n.at[i]) * 1099511628211u;
  for (uint32_t i = (h ^ h >> 32) & (t->size - 1);; i = (i + 1) & (t->size - 1)) {
    uint32_t p = t->places[i];
    if (!p || (t->names[p - 1].size == n.size && !memcmp(t->names[p - 1].at, n.at, n.size))) return &t->places[i];
  }
}
static void add(Table *t, Slice n) {
  if (2 * t->count >= t->size) {
    free(t->places); t->size = t->size ? 2 * t->size : 16;
    if (!(t->places = calloc(t->size, sizeof *t->places))) exit(2);
    for (uint32_t i = 0; i < t->count; i++) *slot(t, t->names[i]) = i + 1;
  }
  uint32_t *p = slot(t, n); if (*p) fault();
  t->names = grown(t->names, t->count, sizeof n); t->names[t->count++] = n; *p = t->count;
}
static uint32_t place(Table *t, Slice n) { uint32_t p = t->size ? *slot(t, n) : 0; if (!p) fault(); return p - 1; }

static int rank(Slice m) { return m.size == 0 ? 0 : *m.at == 'r' ? 1 : *m.at == 'g' ? 2 : *m.at == 'b' ? 3 : 4; }
static int by_line(const void *p, const void *q) {
  const Edge *a = p, *b = q;
  if (a->source != b->source) return a->source < b->source ? -1 : 1;
  if (a->target != b->target) return a->target < b->target ? -1 : 1;
  if (rank(a->mark) != rank(b->mark)) return rank(a->mark) - rank(b->mark);
  int c = memcmp(a->label.at, b->label.at, a->label.size < b->label.size ? a->label.size : b->label.size);
  return c ? c : (int)a->label.size - (int)b->label.size;
}
static void print_end(Slice l, Slice m) {
  fwrite(l.at, 1, l.size, stdout);
  if (m.size) { fputs(" # ", stdout); fwrite(m.at, 1, m.size, stdout); }
  fputs(")\n", stdout);
}

int main(int count, char **words) {
  FILE *file = count == 2 ? fopen(words[1], "rb") : NULL; if (!file) fault();
  fseek(file, 0, SEEK_END); long size = ftell(file); rewind(file);
  char *text = malloc(size + 1); if (!text || fread(text, 1, size, file) != (size_t)size) exit(2);
  text[size] = 0; at = text;
  Table nodes = {0}, edges = {0}; Node *node = NULL; Edge *edge = NULL;
  for (expect('['); eat('(');) {
    add(&nodes, word()); node = grown(node, nodes.count - 1, sizeof *node);
    Node *n = &node[nodes.count - 1]; n->root = eat('(');
    if (n->root) { expect('R'); expect(')'); }
    expect(','); n->label = label(); n->mark = mark(); expect(')');
  }
  for (expect('|'); eat('(');) {
    add(&edges, word()); edge = grown(edge, edges.count - 1, sizeof *edge);
    Edge *e = &edge[edges.count - 1];
    expect(','); e->source = place(&nodes, word()); expect(','); e->target = place(&nodes, word());
    expect(','); e->label = label(); e->mark = mark(); expect(')');
  }
  expect(']'); skip(); if (*at) fault();
  qsort(edge, edges.count, sizeof *edge, by_line);
  puts("[");
  for (uint32_t i = 0; i < nodes.count; i++) { printf("  (n%u%s, ", i, node[i].root ? "(R)" : ""); print_end(node[i].label, node[i].mark); }
  puts("|");
  for (uint32_t i = 0; i < edges.count; i++) { printf("  (e%u, n%u, n%u, ", i, edge[i].source, edge[i].target); print_end(edge[i].label, edge[i].mark); }
  puts("]");
  return 0;
}
