// Instances from text files.
#include "instance.h"
#include <stdio.h>
#include <string.h>

static int read_edges(Instance *g, FILE *in) {
  if (fscanf(in, "%zu %zu", &g->nodes, &g->edges) != 2 || g->nodes > YUVATONDRO_MAX_STEPS || g->edges > YUVATONDRO_MAX_EDGES) return 0;
  for (size_t i = 0; i < g->edges; i++) {
    Edge *e = &g->edge[i];
    if (fscanf(in, "%u %u %u %u", &e->from, &e->to, &e->gap, &e->weight) != 4) return 0;
    if (e->from >= g->nodes || e->to >= g->nodes) return 0;
  }
  return 1;
}
int read_instance(Instance *g, const char *path) {
  const char *slash = strrchr(path, '/');
  FILE *in = fopen(path, "r");
  if (!in) return 0;
  int good = read_edges(g, in);
  fclose(in);
  snprintf(g->name, MAX_NAME, "%.*s", MAX_NAME - 1, slash ? slash + 1 : path);
  return good;
}
