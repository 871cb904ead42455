/* ember.h: exact Booleans of closed triangle meshes, for C99 and C++. Licence: MIT. The page LIBRARY says how to use it; packages have it
   in share/doc/libember-dev/use, and the repository in docs/use. */
#ifndef EMBER_H
#define EMBER_H
#include <stddef.h>
#include <stdint.h>
#include <stdlib.h>
#include <string.h>
#ifdef __cplusplus
extern "C" {
#endif

/* The version of this interface. It changes if a struct or a meaning does. */
#define EMBER_ABI 1u

/* The statuses: the exit statuses of the programs. The pages FORMATS and MESHES beside LIBRARY say when each comes. */
enum {
  EMBER_DONE = 0,
  EMBER_WORDS = 2,
  EMBER_NO_FILE = 3,
  EMBER_NOT_WRITTEN = 4,
  EMBER_REFUSED = 5,
  EMBER_NOT_CLOSED = 6,
  EMBER_EXPRESSION = 7,
  EMBER_UNBOUNDED = 8,
  EMBER_TOO_MUCH = 9,
  EMBER_TOO_FAR = 10,
  EMBER_DOCUMENT = 11,
  EMBER_NO_MEMORY = 12,
  EMBER_NO_TEXT = 13,
  EMBER_UNCERTIFIED = 14
};

/* Bytes that the caller lends for a call. `at` isn't NULL, not even if `len` is 0. Nobody may write them during the call. */
typedef struct {
  const uint8_t *at;
  size_t len;
} ember_bytes;

/* A block that the caller owns after a call; NULL and 0 if it has no bytes. It came from malloc. */
typedef struct {
  uint8_t *at;
  size_t len;
} ember_block;

/* A file that the caller lends. */
typedef struct {
  ember_bytes name, bytes;
} ember_file;

/* A file that the caller owns after a call. */
typedef struct {
  ember_block name, bytes;
} ember_named;

/* What a program would leave. With a status above 0 `out` and `files` are empty, and `err` has one line; but with
   EMBER_NO_TEXT it has none, and with EMBER_NO_MEMORY it may have none. */
typedef struct {
  uint32_t status;      /* the exit status of the program */
  uint32_t file;        /* the number of the file at fault, from 1, in the order in which the words name them; 0 if none is
                           known to be */
  uint64_t place;       /* the line, facet, vertex or face in it, from 1; 0 if only the line in `err` has it, or if none is
                           known */
  ember_block out, err; /* what the program writes to standard output and to standard error */
  ember_named *files;   /* the files that it writes, in this order; NULL if there are none */
  size_t n_files;
} ember_answer;

/* ---- the programs as functions ---- */

/* Does what `ember-mesh WORDS..` does in a folder that has exactly these files (of those with one name the first counts),
   with one thread. Nothing is read from or written to the system. `words` are UTF-8, without the program's name. `answer` is
   overwritten, whatever it holds; free it with ember_answer_free. Returns answer->status. Any number of threads may call at
   once, each with an answer of its own. */
uint32_t ember_mesh_command(const ember_bytes *words, size_t n_words, const ember_file *files, size_t n_files, ember_answer *answer);

/* The same for `ember WORDS..`: faces, at, bool, demo, voxels, pairs, slice. */
uint32_t ember_command(const ember_bytes *words, size_t n_words, const ember_file *files, size_t n_files, ember_answer *answer);

/* ---- meshes in arrays ---- */

/* A mesh that the caller lends: x, y and z of each vertex, and of each triangle the three indices of its corners among
   the vertices, from 0, counter-clockwise seen from outside. The pointers aren't NULL, not even if there is nothing there. */
typedef struct {
  const double *vertices;
  size_t n_vertices;
  const uint32_t *triangles;
  size_t n_triangles;
} ember_mesh;

/* How a solid is made. Begin with EMBER_OPTIONS_INIT: with {0} digits are 0, and coordinates are rounded to whole numbers. */
typedef struct {
  ember_bytes step; /* the step of the grid on which it is exact: "nice", "finest" or a decimal above 0, in the unit of the
                       meshes; nice if there are no bytes */
  uint32_t digits;  /* the decimal places to which coordinates are rounded, 0 to 17; or EMBER_DIGITS: six more than the step has */
  uint32_t wants;   /* EMBER_SOURCES, or 0; no other bit has a meaning */
} ember_options;
#define EMBER_DIGITS 0xffffffffu
#define EMBER_SOURCES 1u /* the solid has sources */
/* What a call without options takes: ember_options options = EMBER_OPTIONS_INIT; */
#define EMBER_OPTIONS_INIT {{NULL, 0}, EMBER_DIGITS, 0}

/* Where a triangle comes from: the first triangle of the meshes, in their order, on which a part of it lies. Meshes are meant as they
   are on the grid, and triangles as they are before they are rounded. */
typedef struct {
  uint32_t mesh;     /* the number of the mesh, from 1; 0 if no triangle was found */
  uint32_t triangle; /* the number of its triangle, from 0; 0xffffffff if none was found */
  uint32_t flags;    /* EMBER_TURNED and EMBER_SEVERAL, or 0 */
} ember_source;
#define EMBER_TURNED 1u  /* the triangle of the mesh faces the other way: the mesh was cut away there */
#define EMBER_SEVERAL 2u /* parts of the triangle may lie on other triangles of the meshes, too, in the same plane */

/* A solid that the caller owns after a call. With a status above 0 there are no vertices and no triangles. `line` is the report, or
   why there is no solid, as ember-mesh says it of files called `mesh 1`, `mesh 2`, ..: one or more lines, each of which begins with
   "ember-mesh: " and ends in a newline. With EMBER_NO_TEXT there is none, and with EMBER_NO_MEMORY there may be none. */
typedef struct {
  uint32_t status;      /* the exit status of ember-mesh for the same meshes */
  uint32_t mesh;        /* the number of the mesh at fault, from 1; 0 if none is known to be */
  uint64_t place;       /* the number of its vertex (a coordinate is infinite or NaN) or of its triangle (any other fault), from 0; or
                           EMBER_NO_PLACE */
  ember_block line;
  double *vertices;     /* x, y and z of each; NULL if there are none */
  size_t n_vertices;
  uint32_t *triangles;  /* three indices from 0 of each; NULL if there are none */
  size_t n_triangles;
  ember_source *sources; /* one for each triangle if they are wanted; NULL if not, or if there are no triangles */
  uint64_t step[2];     /* the step of the grid: a numerator and a denominator */
  uint64_t offset[3][2]; /* the middle of the grid along each axis, in steps: 128 bits in two's complement, the low word first */
  uint64_t faces, planes;      /* how many exact faces the solid has, and planes */
  uint64_t vanished;           /* how many of its exact triangles aren't there, since two corners became equal when rounded */
  uint64_t shared;             /* how many edges of the others belong to more than two of them, where equal corners are one */
  uint64_t flat, turned;       /* how many of the others have no area, and how many are turned over */
  uint64_t is_manifold;        /* 1 if each edge between its vertices has two triangles, else 0 */
} ember_solid;
#define EMBER_NO_PLACE UINT64_MAX

/* Makes the solid in which the expression is true of the winding numbers of the meshes: mesh i, from 0, is m(i+1) and w(i+1) in the
   expression (the page FORMATS says how it is written). `solid` is overwritten, whatever it holds; free it with ember_solid_free.
   Returns solid->status. It uses one thread, and any number of threads may call at once. */
uint32_t ember_boolean_with(const ember_mesh *meshes, size_t n_meshes, const uint8_t *expression, size_t n_expression, const uint8_t *step,
                            size_t n_step, uint32_t digits, uint32_t wants, ember_solid *solid);

/* ---- the library ---- */

/* The EMBER_ABI of the library that is linked. */
uint32_t ember_abi(void);

/* Writes as much of the library's version ("0.3.0", without a zero byte) as there is room for, and returns its length. */
uint32_t ember_version(uint8_t *to, size_t room);

/* Whether this processor can run the library. Call it once, before anything else. */
static inline int ember_runs_here(void) {
#if defined(__x86_64__) && defined(__GNUC__)
  return __builtin_cpu_supports("sse4.2") && __builtin_cpu_supports("popcnt") && __builtin_cpu_supports("ssse3");
#else
  return 0;
#endif
}

/* The bytes of a text, without its zero byte. */
static inline ember_bytes ember_text(const char *text) {
  ember_bytes bytes = {(const uint8_t *)text, strlen(text)};
  return bytes;
}

/* The same as ember_boolean_with for an expression in a text. `options` may be NULL, which means EMBER_OPTIONS_INIT: a nice step,
   EMBER_DIGITS, and no wants. */
static inline uint32_t ember_boolean(const ember_mesh *meshes, size_t n_meshes, const char *expression, const ember_options *options,
                                     ember_solid *solid) {
  ember_bytes text = ember_text(expression), step = options && options->step.len ? options->step : ember_text("nice");
  uint32_t digits = options ? options->digits : EMBER_DIGITS, wants = options ? options->wants : 0;
  return ember_boolean_with(meshes, n_meshes, text.at, text.len, step.at, step.len, digits, wants, solid);
}

static inline void ember_free(ember_block *block) {
  free(block->at);
  block->at = NULL;
  block->len = 0;
}

/* Frees all that an answer holds, and leaves it empty. */
static inline void ember_answer_free(ember_answer *answer) {
  size_t i;
  for (i = 0; i < answer->n_files; i++) {
    ember_free(&answer->files[i].name);
    ember_free(&answer->files[i].bytes);
  }
  free(answer->files);
  answer->files = NULL;
  answer->n_files = 0;
  ember_free(&answer->out);
  ember_free(&answer->err);
}

/* Frees all that a solid holds, and leaves it without arrays. */
static inline void ember_solid_free(ember_solid *solid) {
  ember_free(&solid->line);
  free(solid->vertices);
  free(solid->triangles);
  free(solid->sources);
  solid->vertices = NULL;
  solid->triangles = NULL;
  solid->sources = NULL;
  solid->n_vertices = solid->n_triangles = 0;
}

#ifdef __cplusplus
}
#endif
#endif
