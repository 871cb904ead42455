/* Loads two shared libraries of ember in one process, and calls both: two_libraries FIRST SECOND. Each has functions of its own, though their names
   are the same and all of the first can be seen when the second is loaded, and both give the same solid. */
#include "ember.h"
#include <dlfcn.h>
#include <stdio.h>

typedef uint32_t boolean(const ember_mesh *, size_t, const uint8_t *, size_t, const uint8_t *, size_t, uint32_t, uint32_t, ember_solid *);

static void *function_of(const char *path, const char *name) {
  void *library = dlopen(path, RTLD_NOW | RTLD_GLOBAL), *function = library ? dlsym(library, name) : NULL;
  if (!function) fprintf(stderr, "%s\n", dlerror()), exit(125);
  return function;
}

static boolean *boolean_of(const char *path) {
  boolean *call;
  void *function = function_of(path, "ember_boolean_with");
  memcpy(&call, &function, sizeof call);
  return call;
}

static void solid_of(boolean *call, ember_solid *solid) {
  static const double one[] = {0, 0, 0, 2, 0, 0, 0, 2, 0, 0, 0, 2}, other[] = {.5, .5, .5, 2.5, .5, .5, .5, 2.5, .5, .5, .5, 2.5};
  static const uint32_t sides[] = {0, 2, 1, 0, 1, 3, 0, 3, 2, 1, 2, 3};
  const ember_mesh meshes[] = {{one, 4, sides, 4}, {other, 4, sides, 4}};
  ember_bytes expression = ember_text("m1&!m2"), step = ember_text("nice");
  call(meshes, 2, expression.at, expression.len, step.at, step.len, EMBER_DIGITS, 0, solid);
}

int main(int argc, char **argv) {
  ember_solid a, b;
  if (argc != 3) return 125;
  boolean *first = boolean_of(argv[1]), *second = boolean_of(argv[2]);
  if (first == second) return puts("both have the same function"), 1;
  solid_of(first, &a);
  solid_of(second, &b);
  int same = a.status == EMBER_DONE && b.status == EMBER_DONE && a.n_vertices == b.n_vertices && a.n_triangles == b.n_triangles && a.n_triangles > 0;
  same = same && memcmp(a.vertices, b.vertices, 24 * a.n_vertices) == 0 && memcmp(a.triangles, b.triangles, 12 * a.n_triangles) == 0;
  printf("%zu triangles%s\n", a.n_triangles, same ? "" : ", and others");
  ember_solid_free(&a);
  ember_solid_free(&b);
  return !same;
}
