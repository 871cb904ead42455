/* The union of two OBJ files of triangles by the C library: measured_boolean A B [sources]. tools/measure_library counts what the call takes. */
#include <ember.h>
#include <stdio.h>

enum { MOST = 1 << 18 };

static double vertices[2][3 * MOST];
static uint32_t triangles[2][3 * MOST];

static ember_mesh read_mesh(const char *name, double *places, uint32_t *corners) {
  ember_mesh mesh = {places, 0, corners, 0};
  char line[256];
  FILE *file = fopen(name, "r");
  if (!file) exit(125);
  while (fgets(line, sizeof line, file) && mesh.n_vertices < MOST && mesh.n_triangles < MOST) {
    double *at = places + 3 * mesh.n_vertices;
    uint32_t *of = corners + 3 * mesh.n_triangles;
    if (sscanf(line, "v %lf %lf %lf", at, at + 1, at + 2) == 3) mesh.n_vertices++;
    if (sscanf(line, "f %u %u %u", of, of + 1, of + 2) == 3) of[0]--, of[1]--, of[2]--, mesh.n_triangles++;
  }
  fclose(file);
  return mesh;
}

int main(int argc, char **argv) {
  ember_mesh meshes[2];
  ember_options options = {{NULL, 0}, EMBER_DIGITS, argc == 4 ? EMBER_SOURCES : 0};
  ember_solid solid;
  if (argc != 3 && argc != 4) return 125;
  meshes[0] = read_mesh(argv[1], vertices[0], triangles[0]);
  meshes[1] = read_mesh(argv[2], vertices[1], triangles[1]);
  ember_boolean(meshes, 2, "m1|m2", &options, &solid);
  printf("%lu vertices, %lu triangles\n", (unsigned long)solid.n_vertices, (unsigned long)solid.n_triangles);
  ember_solid_free(&solid);
  return (int)solid.status;
}
