/* A library with the interface of ember.h that is refused all memory: no block comes with its answers. With -DABI=N it says that its interface is
   another one. With -DLACKS_SOURCE each solid has two triangles, of which the second has no source. */
#include "ember.h"

#ifndef ABI
#define ABI EMBER_ABI
#endif

uint32_t ember_mesh_command(const ember_bytes *words, size_t n_words, const ember_file *files, size_t n_files, ember_answer *answer) {
  (void)words, (void)n_words, (void)files, (void)n_files;
  memset(answer, 0, sizeof *answer);
  return answer->status = EMBER_NO_MEMORY;
}

uint32_t ember_boolean_with(const ember_mesh *meshes, size_t n_meshes, const uint8_t *expression, size_t n_expression, const uint8_t *step,
                            size_t n_step, uint32_t digits, uint32_t wants, ember_solid *solid) {
  (void)meshes, (void)n_meshes, (void)expression, (void)n_expression, (void)step, (void)n_step, (void)digits, (void)wants;
  memset(solid, 0, sizeof *solid);
  solid->place = EMBER_NO_PLACE;
#ifdef LACKS_SOURCE
  static const ember_source sources[] = {{2, 5, EMBER_TURNED}, {0, UINT32_MAX, 0}};
  solid->n_triangles = 2;
  solid->triangles = calloc(6, sizeof *solid->triangles);
  if (wants == EMBER_SOURCES) solid->sources = memcpy(malloc(sizeof sources), sources, sizeof sources);
  return solid->status = EMBER_DONE;
#else
  return solid->status = EMBER_NO_MEMORY;
#endif
}

uint32_t ember_abi(void) { return ABI; }
