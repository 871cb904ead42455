/* What tests/check_library runs over the C library's calls with words: each status with the number of its file, its place and its line, by the
   program that it stands for. No call is known that gives EMBER_NOT_WRITTEN or EMBER_UNCERTIFIED. Of two files of one name the second is no
   mesh. No block is lost. Prints what is wrong, and last "N wrong". */
#include "counted_memory.h"
#include "ember.h"
#include <stdio.h>

typedef uint32_t command(const ember_bytes *, size_t, const ember_file *, size_t, ember_answer *);

enum { MOST_WORDS = 16, TEXTS = 4, FILES = TEXTS + 1 };
/* One byte more than a file may have. */
static const size_t LONG = ((size_t)1 << 28) + 1;

static const char *const texts[TEXTS][2] = {
    {"cube.obj", "v 0 0 0\nv 2 0 0\nv 2 2 0\nv 0 2 0\nv 0 0 2\nv 2 0 2\nv 2 2 2\nv 0 2 2\n"
                 "f 1 4 3 2\nf 5 6 7 8\nf 1 2 6 5\nf 2 3 7 6\nf 3 4 8 7\nf 4 1 5 8\n"},
    {"open.obj", "v 0 0 0\nv 1 0 0\nv 0 1 0\nf 1 2 3\n"},
    {"nan.obj", "v 0 0 0\nv 0 nan 0\n"},
    {"cube.obj", "no mesh"},
};

static const struct refusal {
  command *call;
  const char *words;
  uint32_t status, file;
  uint64_t place;
  const char *line;
} refusals[] = {
    {ember_mesh_command, "join -o out.stl cube.obj", EMBER_WORDS, 0, 0, "ember-mesh: join: no such command; see ember-mesh help"},
    {ember_mesh_command, "union -o out.stl cube.obj none.obj", EMBER_NO_FILE, 2, 0, "ember-mesh: none.obj: cannot be read (No such file or directory)"},
    {ember_mesh_command, "union -o out.stl nan.obj cube.obj", EMBER_REFUSED, 1, 0, "ember-mesh: nan.obj: line 2: coordinate 'nan' is not a number; export anew"},
    {ember_mesh_command, "union -o out.stl cube.obj open.obj", EMBER_NOT_CLOSED, 2, 4, "ember-mesh: open.obj: not closed: 3 loose edges, the first from (0 0 0) to "},
    {ember_mesh_command, "bool --expr m1&!m9 -o out.stl cube.obj", EMBER_EXPRESSION, 0, 0, "ember-mesh: expression: no mesh 9"},
    {ember_mesh_command, "bool --expr !m1 -o out.stl cube.obj", EMBER_UNBOUNDED, 0, 0, "ember-mesh: expression holds outside all meshes"},
    {ember_mesh_command, "union -o out.stl long.obj cube.obj", EMBER_TOO_MUCH, 1, 0, "ember-mesh: long.obj: more than 268435456 bytes; simplify the mesh"},
    {ember_mesh_command, "union --step 0.0001 -o out.stl cube.obj", EMBER_TOO_FAR, 0, 0, "ember-mesh: --step 0.0001: the scene is 2 long, which needs a step of at least "},
    {ember_mesh_command, "export -o out.stl cube.obj", EMBER_DOCUMENT, 0, 0, "ember-mesh: cube.obj: not a face file"},
    {ember_mesh_command, "union -o out.stl \xff.obj", EMBER_NO_TEXT, 0, 0, ""},
    {ember_command, "unite cube.obj", EMBER_WORDS, 0, 0, "ember: words refused"},
    {ember_command, "bool --expr m1 cube.obj none.obj", EMBER_NO_FILE, 2, 0, "ember: cannot read none.obj"},
    {ember_command, "faces nan.obj", EMBER_REFUSED, 1, 2, "ember: nan.obj: line 2: coordinate malformed"},
    {ember_command, "bool --expr m1 cube.obj open.obj", EMBER_NOT_CLOSED, 2, 0, "ember: open.obj: edge "},
    {ember_command, "bool --expr m1&!m9 cube.obj", EMBER_EXPRESSION, 0, 0, "ember: expression: no mesh 9"},
    {ember_command, "bool --expr !m1 cube.obj", EMBER_UNBOUNDED, 0, 0, "ember: expression holds outside all meshes"},
    {ember_command, "faces long.obj", EMBER_TOO_MUCH, 1, 0, "ember: long.obj: more than 268435456 bytes"},
    {ember_command, "at --point 0,0,0,1 --expr m1 cube.obj", EMBER_TOO_FAR, 0, 0, "ember: point not clear"},
    {ember_command, "slice --at 0 cube.obj", EMBER_DOCUMENT, 1, 0, "ember: cube.obj: not a face file"},
    {ember_command, "faces \xff.obj", EMBER_NO_TEXT, 0, 0, ""},
};

static ember_file files[FILES];

static void lend_files(uint8_t *bytes) {
  for (size_t i = 0; i < TEXTS; i++) files[i].name = ember_text(texts[i][0]), files[i].bytes = ember_text(texts[i][1]);
  files[TEXTS].name = ember_text("long.obj");
  files[TEXTS].bytes.at = bytes;
  files[TEXTS].bytes.len = LONG;
}

static size_t split(char *line, ember_bytes *words) {
  size_t count = 0;
  for (char *word = strtok(line, " "); word && count < MOST_WORDS; word = strtok(NULL, " ")) words[count++] = ember_text(word);
  return count;
}

/* One line, which begins like this; or nothing. */
static int is_line(const ember_block *err, const char *line) {
  size_t begins = strlen(line);
  if (!begins) return !err->at && !err->len;
  return err->len > begins && memcmp(err->at, line, begins) == 0 && memchr(err->at, '\n', err->len) == err->at + err->len - 1;
}

static int is_wrong(const struct refusal *it) {
  char line[128];
  ember_bytes words[MOST_WORDS];
  ember_answer answer;
  snprintf(line, sizeof line, "%s", it->words);
  uint32_t status = it->call(words, split(line, words), files, FILES, &answer);
  int right = status == it->status && answer.status == status && answer.file == it->file && answer.place == it->place && is_line(&answer.err, it->line);
  right = right && !answer.out.at && !answer.out.len && !answer.files && !answer.n_files;
  if (!right)
    printf("%s: status %u, file %u, place %llu, %.*s\n", it->words, status, answer.file, (unsigned long long)answer.place, (int)answer.err.len,
           answer.err.at ? (const char *)answer.err.at : "");
  ember_answer_free(&answer);
  if (blocks) printf("%s: %ld blocks are left\n", it->words, blocks);
  return !right || blocks;
}

int main(void) {
  uint8_t *bytes = calloc(LONG, 1);
  int wrong = 0;
  if (!ember_runs_here() || ember_abi() != EMBER_ABI || !bytes) return 125;
  lend_files(bytes);
  for (size_t i = 0; i < sizeof refusals / sizeof *refusals; i++) wrong += is_wrong(refusals + i);
  __real_free(bytes);
  printf("%d wrong\n", wrong);
  return wrong != 0;
}
