/* What tests/check_library runs over the C library's Booleans of meshes in arrays. `cube` and `corner` are the boxes from 0 to 2 and from
   1 to 3.

   cases     each status that a call can be made to give, with its mesh, its place and its line, the numbers of four solids, expressions of
             random bytes, and the sources of five solids; the last line is "N wrong"
   memory    a Boolean with sources again and again, first without any memory, then with one more request that is met each time, and each request alone
             refused: a call ends with status 12, or as if nothing was refused, and leaves no block that the caller doesn't get
   threads   four Booleans in 8 threads with 256 KiB of stack each, 100 times in each: all give the arrays that one thread gives

   Linked with --wrap for malloc, realloc and free, it counts the library's blocks. VERSION is the version that the library must have. */
#define _XOPEN_SOURCE 700
#include "counted_memory.h"
#include "ember.h"
#include <math.h>
#include <pthread.h>
#include <stdio.h>

enum { THREADS = 8, CALLS = 100, STACK = 256 * 1024, MOST = 65, EXPRESSIONS = 2000 };

static const uint32_t triangles[12][3] = {{0, 3, 2}, {0, 2, 1}, {4, 5, 6}, {4, 6, 7}, {0, 1, 5}, {0, 5, 4},
                                          {1, 2, 6}, {1, 6, 5}, {2, 3, 7}, {2, 7, 6}, {3, 0, 4}, {3, 4, 7}};
static double cube[8][3], corner[8][3];
static ember_mesh meshes[MOST];

static void make_box(double (*box)[3], double low) {
  static const int at[8][3] = {{0, 0, 0}, {1, 0, 0}, {1, 1, 0}, {0, 1, 0}, {0, 0, 1}, {1, 0, 1}, {1, 1, 1}, {0, 1, 1}};
  for (int i = 0; i < 8; i++)
    for (int j = 0; j < 3; j++) box[i][j] = low + 2 * at[i][j];
}

static ember_mesh box_of(double (*box)[3]) {
  ember_mesh mesh = {&box[0][0], 8, &triangles[0][0], 12};
  return mesh;
}

static void begin(void) {
  make_box(cube, 0);
  make_box(corner, 1);
  for (int i = 0; i < MOST; i++) meshes[i] = box_of(i % 2 ? corner : cube);
}

/* ---- cases */

static int wrong;

static void expect(const char *what, uint32_t status, uint32_t mesh, uint64_t place, size_t n_meshes, const char *expression, const char *step,
                   uint32_t digits, const char *line) {
  ember_options options = {ember_text(step), digits, 0};
  ember_solid solid;
  ember_boolean(meshes, n_meshes, expression, &options, &solid);
  int right = solid.status == status && solid.mesh == mesh && solid.place == place && solid.line.len >= strlen(line) &&
              (solid.line.len == 0 || memcmp(solid.line.at, line, strlen(line)) == 0);
  if (status) right = right && !solid.vertices && !solid.triangles && !solid.sources && !solid.n_vertices && !solid.n_triangles;
  if (!right)
    printf("%s: status %u, mesh %u, place %llu, %.*s\n", what, solid.status, solid.mesh, (unsigned long long)solid.place, (int)solid.line.len,
           solid.line.at ? (const char *)solid.line.at : "");
  wrong += !right;
  ember_solid_free(&solid);
  begin();
}

static void expect_both(void) {
  ember_solid solid;
  ember_boolean(meshes, 2, "m1&m2", NULL, &solid);
  int right = solid.status == EMBER_DONE && solid.n_vertices == 8 && solid.n_triangles == 12 && solid.is_manifold == 1 && !solid.sources;
  for (size_t i = 0; right && i < 3 * solid.n_vertices; i++) right = solid.vertices[i] == 1 || solid.vertices[i] == 2;
  for (size_t i = 0; right && i < 3 * solid.n_triangles; i++) right = solid.triangles[i] < 8;
  if (!right) printf("both: status %u, %zu vertices\n", solid.status, solid.n_vertices);
  wrong += !right;
  ember_solid_free(&solid);
}

/* ---- sources */

static void normal_of(const double *a, const double *b, const double *c, double *normal) {
  for (int i = 0; i < 3; i++) {
    int j = (i + 1) % 3, k = (i + 2) % 3;
    normal[i] = (b[j] - a[j]) * (c[k] - a[k]) - (b[k] - a[k]) * (c[j] - a[j]);
  }
}

static double dot(const double *a, const double *b) { return a[0] * b[0] + a[1] * b[1] + a[2] * b[2]; }

/* The area of the part of a polygon of n corners, at most 6, that lies in the triangle a, b, c of its plane, times the normal's length. */
static double overlap(double (*polygon)[3], int n, const double *a, const double *b, const double *c) {
  const double *corners[4] = {a, b, c, a};
  double normal[3], side[3], sum = 0;
  normal_of(a, b, c, normal);
  for (int edge = 0; edge < 3; edge++) {
    double kept[9][3], heights[9];
    int count = 0;
    for (int i = 0; i < n; i++) {
      normal_of(corners[edge], corners[edge + 1], polygon[i], side);
      heights[i] = dot(normal, side);
    }
    for (int i = 0; i < n; i++) {
      int next = (i + 1) % n;
      if (heights[i] >= 0) memcpy(kept[count++], polygon[i], sizeof kept[0]);
      if ((heights[i] > 0 && heights[next] < 0) || (heights[i] < 0 && heights[next] > 0)) {
        double share = heights[i] / (heights[i] - heights[next]);
        for (int j = 0; j < 3; j++) kept[count][j] = polygon[i][j] + share * (polygon[next][j] - polygon[i][j]);
        count++;
      }
    }
    n = count;
    memcpy(polygon, kept, sizeof kept[0] * n);
  }
  for (int i = 2; i < n; i++) {
    normal_of(polygon[0], polygon[i - 1], polygon[i], side);
    sum += fabs(dot(normal, side)) / 2;
  }
  return sum;
}

/* The source of a triangle: all triangles of both meshes are clipped to it. */
static ember_source wanted_source(const ember_solid *solid, size_t index) {
  ember_source source = {0, UINT32_MAX, 0};
  double own[3][3], normal[3], facing[3], part[9][3];
  for (int i = 0; i < 3; i++) memcpy(own[i], solid->vertices + 3 * solid->triangles[3 * index + i], sizeof own[i]);
  normal_of(own[0], own[1], own[2], facing);
  for (uint32_t mesh = 0; mesh < 2; mesh++)
    for (uint32_t number = 0; number < 12; number++) {
      const double *at[3];
      int is_flat = 1;
      for (int i = 0; i < 3; i++) at[i] = meshes[mesh].vertices + 3 * meshes[mesh].triangles[3 * number + i];
      normal_of(at[0], at[1], at[2], normal);
      for (int i = 0; i < 3; i++) is_flat = is_flat && dot(normal, own[i]) == dot(normal, at[0]);
      memcpy(part, own, sizeof own);
      if (!is_flat || overlap(part, 3, at[0], at[1], at[2]) < 1e-9) continue;
      if (source.mesh) {
        source.flags |= EMBER_SEVERAL;
      } else {
        source.mesh = mesh + 1, source.triangle = number;
        source.flags = dot(normal, facing) < 0 ? EMBER_TURNED : 0;
      }
    }
  return source;
}

static void expect_sources(const char *what, const char *expression, int are_turned, int are_several) {
  ember_options options = {ember_text("nice"), EMBER_DIGITS, EMBER_SOURCES};
  ember_solid solid;
  uint32_t flags = 0;
  ember_boolean(meshes, 2, expression, &options, &solid);
  int right = solid.status == EMBER_DONE && solid.sources;
  for (size_t i = 0; right && i < solid.n_triangles; i++) {
    ember_source source = wanted_source(&solid, i);
    right = memcmp(&source, solid.sources + i, sizeof source) == 0 && source.mesh != 0;
    flags |= source.flags;
  }
  right = right && (!are_turned || flags & EMBER_TURNED) && (!are_several || flags & EMBER_SEVERAL);
  if (!right) printf("sources of %s: status %u\n", what, solid.status);
  wrong += !right;
  ember_solid_free(&solid);
}

/* A cube without one that is apart from it, a cube without a corner, and two boxes with four common planes. */
static void try_sources(void) {
  make_box(corner, 5);
  expect_sources("a cube", "m1&!m2", 0, 0);
  begin();
  expect_sources("a cube without a corner", "m1&!m2", 1, 0);
  for (int i = 0; i < 8; i++)
    for (int j = 1; j < 3; j++) corner[i][j] -= 1;
  expect_sources("two flush boxes", "m1|m2", 0, 1);
  expect_sources("what both flush boxes fill", "m1&m2", 0, 1);
  expect_sources("a box without its flush half", "m1&!m2", 1, 0);
  begin();
}

/* ---- the numbers of the report */

/* Whether a number of 128 bits is this one. */
static int is_wide(const uint64_t *wide, long long number) { return wide[0] == (uint64_t)number && wide[1] == (number < 0 ? UINT64_MAX : 0); }

/* The line has the numbers that the solid has in its fields, which are added up in `sums`. */
static void expect_numbers(const char *what, const char *expression, uint32_t digits, uint64_t *sums) {
  ember_options options = {ember_text("nice"), digits, 0};
  ember_solid solid;
  char line[2048] = "";
  double step = 0;
  long long offset[3] = {0}, counts[6] = {0};
  ember_boolean(meshes, 2, expression, &options, &solid);
  if (solid.line.len < sizeof line) memcpy(line, solid.line.at, solid.line.len);
  const char *end = strstr(line, " faces -> ");
  while (end && end > line && end[-1] != ' ') end--;
  int read = sscanf(line, "ember-mesh: step %lf, grid offset %lld %lld %lld\n", &step, offset, offset + 1, offset + 2);
  read += end ? sscanf(end, "%lld faces -> %*d triangles in %lld planes; greatest rounding move %*[^;]; %lld vanished, %lld without area, %lld turned over; %lld edges",
                       counts, counts + 1, counts + 2, counts + 3, counts + 4, counts + 5)
              : 0;
  const uint64_t fields[6] = {solid.faces, solid.planes, solid.vanished, solid.flat, solid.turned, solid.shared};
  int right = solid.status == EMBER_DONE && read == 10 && (double)solid.step[0] / (double)solid.step[1] == step;
  for (int i = 0; i < 3; i++) right = right && is_wide(solid.offset[i], offset[i]);
  for (int i = 0; i < 6; i++) right = right && fields[i] == (uint64_t)counts[i], sums[i] += fields[i];
  if (!right) printf("numbers of %s: status %u, %d numbers, %s\n", what, solid.status, read, line);
  wrong += !right;
  ember_solid_free(&solid);
}

/* Solids of which some have negative offsets, some triangles that vanish, and some edges of more than two triangles. */
static void try_numbers(void) {
  uint64_t sums[6] = {0};
  expect_numbers("a cube without a corner", "m1&!m2", EMBER_DIGITS, sums);
  for (int i = 0; i < 8; i++)
    for (int j = 0; j < 3; j++) cube[i][j] -= 9, corner[i][j] -= j == 2 ? 9 : 8;
  expect_numbers("boxes that touch along an edge", "m1|m2", EMBER_DIGITS, sums);
  begin();
  for (int i = 0; i < 8; i++)
    for (int j = 0; j < 3; j++) cube[i][j] = cube[i][j] / 7 + cube[i][(j + 1) % 3] / 3, corner[i][j] /= 5;
  expect_numbers("whole numbers", "m1|m2", 0, sums);
  expect_numbers("whole numbers without a corner", "m1&!m2", 0, sums);
  begin();
  if (!sums[0] || !sums[1] || !sums[2] || !sums[5]) puts("a number is 0 in each report"), wrong++;
}

/* Bytes at random, and bytes that expressions have: what is no expression is refused, and nothing is lost. */
static void try_expressions(void) {
  static const char likely[] = "mmww12!&|^()<>=+-*0 ,odd";
  ember_bytes nice = ember_text("nice");
  uint64_t state = 1;
  long refused = 0, before = blocks;
  for (int i = 0; i < EXPRESSIONS; i++) {
    uint8_t text[16];
    ember_solid solid;
    size_t length = (size_t)i % sizeof text;
    for (size_t j = 0; j < length; j++) {
      state = state * 6364136223846793005u + 1442695040888963407u;
      text[j] = i % 3 ? (uint8_t)likely[(state >> 33) % (sizeof likely - 1)] : (uint8_t)(state >> 33);
    }
    uint32_t status = ember_boolean_with(meshes, 2, text, length, nice.at, nice.len, EMBER_DIGITS, 0, &solid);
    int is_refused = status == EMBER_EXPRESSION || status == EMBER_UNBOUNDED;
    int right = is_refused ? !solid.vertices && !solid.triangles && solid.line.len > 23 && !memcmp(solid.line.at, "ember-mesh: expression", 22)
                           : status == EMBER_DONE;
    ember_solid_free(&solid);
    if (!right || blocks != before) printf("expression %d: status %u, %ld blocks are left\n", i, status, blocks - before), wrong++;
    refused += is_refused;
  }
  if (refused == 0 || refused == EXPRESSIONS) printf("%ld expressions are refused\n", refused), wrong++;
}

/* As much of the version as there is room for. */
static void expect_version(void) {
  uint8_t text[32] = {0}, little[2] = {7, 7};
  uint32_t length = ember_version(text, sizeof text);
  int right = length == strlen(VERSION) && memcmp(text, VERSION, length + 1) == 0;
  right = right && ember_version(little, 1) == length && little[0] == VERSION[0] && little[1] == 7;
  if (!right) printf("version: %s\n", (const char *)text), wrong++;
}

static int try_cases(void) {
  static const uint64_t none = EMBER_NO_PLACE;
  const double numbers[] = {NAN, INFINITY, -INFINITY};
  uint32_t far_corner[12][3];
  expect_version();
  expect_both();
  try_numbers();
  try_expressions();
  try_sources();
  expect("nothing", 0, 0, none, 2, "m1&!m1", "finest", 17, "ember-mesh: step ");
  expect("no meshes", 2, 0, none, 0, "m1", "nice", EMBER_DIGITS, "ember-mesh: no files");
  expect("65 meshes", 2, 0, none, 65, "m1", "nice", EMBER_DIGITS, "ember-mesh: more than 64 files");
  expect("64 meshes", 0, 0, none, 64, "m1|m2", "nice", EMBER_DIGITS, "ember-mesh: step ");
  expect("18 digits", 2, 0, none, 2, "m1", "nice", 18, "ember-mesh: --digits: ");
  expect("no step", 2, 0, none, 2, "m1", "seven", 3, "ember-mesh: --step seven: ");
  expect("step 0", 2, 0, none, 2, "m1", "0", 3, "ember-mesh: --step 0: ");
  expect("a step that is no text", 13, 0, none, 2, "m1", "\xff", 3, "");
  expect("an expression that is no text", 7, 0, none, 2, "\xff", "nice", 3, "ember-mesh: expression: syntax at ");
  expect("no expression", 7, 0, none, 2, "", "nice", 3, "ember-mesh: expression: syntax at ");
  expect("mesh 3", 7, 0, none, 2, "m3", "nice", 3, "ember-mesh: expression: no mesh 3");
  expect("outside", 8, 0, none, 2, "!m1", "nice", 3, "ember-mesh: expression holds outside all meshes");
  expect("a small step", 10, 0, none, 2, "m1", "0.0001", 3, "ember-mesh: --step 0.0001: the scene is 3 long");
  for (int i = 0; i < 3; i++) {
    corner[i][i] = numbers[i];
    expect("not finite", 5, 2, (uint64_t)i, 2, "m1", "nice", 3, "ember-mesh: mesh 2: vertex ");
  }
  corner[6][2] = 1e15;
  expect("far out", 5, 2, 2, 2, "m1", "nice", 3, "ember-mesh: mesh 2: face 3: a coordinate of 1e15 or more");
  corner[6][2] = nextafter(1e15, 0);
  expect("almost far out", 0, 0, none, 2, "m1", "nice", 3, "ember-mesh: step ");
  corner[0][0] = -0.0, corner[0][1] = 5e-324;
  expect("least doubles", 0, 0, none, 2, "m1&m2", "nice", 3, "ember-mesh: step ");
  memcpy(far_corner, triangles, sizeof triangles);
  far_corner[11][0] = 8;
  meshes[0].triangles = &far_corner[0][0];
  expect("no vertex", 5, 1, 11, 2, "m1", "nice", 3, "ember-mesh: mesh 1: face 12: ");
  meshes[0].n_triangles = meshes[1].n_triangles = 0;
  expect("no triangles", 5, 0, none, 2, "m1", "nice", 3, "ember-mesh: no triangles in the files; are they meshes?");
  meshes[1].n_triangles = 0;
  expect("a mesh without triangles", 0, 0, none, 2, "m1&!m2", "nice", 3, "ember-mesh: step ");
  meshes[1].n_triangles = 11;
  expect("a hole", 6, 2, 10, 2, "m1", "nice", 3, "ember-mesh: mesh 2: not closed: 3 loose edges, the first from (1 1 3) to (1 3 1), in face 11");
  printf("%d wrong\n", wrong);
  return wrong != 0;
}

/* ---- want of memory */

static int same_solid(const ember_solid *a, const ember_solid *b) {
  if (a->status != b->status || a->n_vertices != b->n_vertices || a->n_triangles != b->n_triangles || a->line.len != b->line.len) return 0;
  if (!a->sources != !b->sources || (a->sources && memcmp(a->sources, b->sources, sizeof *a->sources * a->n_triangles))) return 0;
  return memcmp(a->vertices, b->vertices, 24 * a->n_vertices) == 0 && memcmp(a->triangles, b->triangles, 12 * a->n_triangles) == 0 &&
         memcmp(a->line.at, b->line.at, a->line.len) == 0;
}

static int try_memory(void) {
  ember_options options = {ember_text("nice"), EMBER_DIGITS, EMBER_SOURCES};
  ember_solid whole, solid;
  long requests = 0;
  ember_boolean(meshes, 2, "m1&!m2", &options, &whole);
  long given = blocks;
  for (refuses_all = 0; refuses_all < 2; refuses_all++) {
    int is_met = 0;
    for (requests = 0; !is_met; requests++) {
      blocks = 0;
      requests_left = requests;
      ember_boolean(meshes, 2, "m1&!m2", &options, &solid);
      is_met = requests_left > 0;
      requests_left = -1;
      int right = solid.status == EMBER_NO_MEMORY ? !solid.vertices && !solid.triangles && !solid.sources : same_solid(&solid, &whole);
      ember_solid_free(&solid);
      if (!right || blocks) printf("%ld requests: status %u, %ld blocks are left\n", requests, solid.status, blocks), wrong++;
    }
  }
  blocks = given;
  ember_solid_free(&whole);
  printf("status %u, %ld requests for memory, %d wrong\n", whole.status, requests - 1, wrong);
  return wrong || blocks;
}

/* ---- threads */

/* Threads next to each other make different calls. */
static const char *const expressions[] = {"m1|m2", "m1&!m2", "m1&m2", "w1+w2=1"};
enum { KINDS = sizeof expressions / sizeof *expressions };
static ember_solid wanted[KINDS];

struct job {
  int kind, others;
};

static void *repeat(void *it) {
  struct job *job = it;
  ember_solid solid;
  for (int i = 0; i < CALLS; i++) {
    ember_boolean(meshes, 2, expressions[job->kind], NULL, &solid);
    job->others += !same_solid(&solid, &wanted[job->kind]);
    ember_solid_free(&solid);
  }
  return NULL;
}

static int try_threads(void) {
  pthread_t threads[THREADS];
  struct job jobs[THREADS];
  pthread_attr_t room;
  pthread_attr_init(&room);
  pthread_attr_setstacksize(&room, STACK);
  for (int i = 0; i < KINDS; i++) wrong += ember_boolean(meshes, 2, expressions[i], NULL, &wanted[i]) != EMBER_DONE;
  for (int i = 0; i < THREADS; i++) {
    jobs[i].kind = i % KINDS, jobs[i].others = 0;
    if (pthread_create(&threads[i], &room, repeat, &jobs[i])) return 125;
  }
  for (int i = 0; i < THREADS; i++) {
    pthread_join(threads[i], NULL);
    wrong += jobs[i].others;
  }
  printf("%d calls of %d kinds, %d wrong\n", THREADS * CALLS, (int)KINDS, wrong);
  for (int i = 0; i < KINDS; i++) ember_solid_free(&wanted[i]);
  return wrong != 0;
}

int main(int argc, char **argv) {
  if (!ember_runs_here() || ember_abi() != EMBER_ABI || argc != 2) return 125;
  begin();
  if (strcmp(argv[1], "cases") == 0) return try_cases();
  return strcmp(argv[1], "memory") == 0 ? try_memory() : try_threads();
}
