/* A cube of edge 2 without the cube of edge 1.5 that lies in one of its corners, as an OFF on standard output. Each triangle has the colour of
   the cube that it comes from: grey or red. */
#include <ember.h>
#include <stdio.h>

static const uint32_t triangles[] = {0, 3, 2, 0, 2, 1, 4, 5, 6, 4, 6, 7, 0, 1, 5, 0, 5, 4, 1, 2, 6, 1, 6, 5, 2, 3, 7, 2, 7, 6, 3, 0, 4, 3, 4, 7};
static const double whole[] = {0, 0, 0, 2, 0, 0, 2, 2, 0, 0, 2, 0, 0, 0, 2, 2, 0, 2, 2, 2, 2, 0, 2, 2};
static const double part[] = {.5, .5, .5, 2, .5, .5, 2, 2, .5, .5, 2, .5, .5, .5, 2, 2, .5, 2, 2, 2, 2, .5, 2, 2};
static const char *const colours[] = {"160 160 160", "220 40 40"};

int main(void) {
  ember_mesh meshes[2] = {{NULL, 8, triangles, 12}, {NULL, 8, triangles, 12}};
  ember_options options = EMBER_OPTIONS_INIT;
  ember_solid solid;
  uint32_t status;
  size_t i;
  if (!ember_runs_here() || ember_abi() != EMBER_ABI) return 1;
  meshes[0].vertices = whole;
  meshes[1].vertices = part;
  options.wants = EMBER_SOURCES;
  status = ember_boolean(meshes, 2, "m1&!m2", &options, &solid);
  if (status == EMBER_DONE) {
    printf("OFF\n%lu %lu 0\n", (unsigned long)solid.n_vertices, (unsigned long)solid.n_triangles);
    for (i = 0; i < 3 * solid.n_vertices; i += 3) printf("%.17g %.17g %.17g\n", solid.vertices[i], solid.vertices[i + 1], solid.vertices[i + 2]);
    for (i = 0; i < solid.n_triangles; i++) {
      const uint32_t *corners = solid.triangles + 3 * i;
      const char *colour = solid.sources[i].mesh ? colours[solid.sources[i].mesh - 1] : "0 0 0";
      printf("3 %lu %lu %lu %s\n", (unsigned long)corners[0], (unsigned long)corners[1], (unsigned long)corners[2], colour);
    }
  } else if (solid.line.at) {
    fwrite(solid.line.at, 1, solid.line.len, stderr);
  }
  ember_solid_free(&solid);
  return (int)status;
}
