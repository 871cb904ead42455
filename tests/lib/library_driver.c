/* What tests/check_library runs over the C library. Called as `ember` or `ember-mesh` it does what that program does in the current folder.
   Called by another name:

   memory PROGRAM WORDS..   the call again and again, first without any memory, then with one more request that is met each time, and each
                            request alone refused: a call ends with status 12 and a line at most, or as if nothing was refused, and
                            leaves no block that the caller doesn't get
   threads PROGRAM WORDS..  the call in 8 threads with 256 KiB of stack each, 100 times in each: all give the same bytes

   Linked with --wrap for malloc, realloc and free, it counts the library's blocks. */
#define _XOPEN_SOURCE 700
#include "counted_memory.h"
#include "ember.h"
#include <ftw.h>
#include <pthread.h>
#include <stdio.h>
#include <sys/stat.h>

enum { MOST_FILES = 256, THREADS = 8, CALLS = 100, STACK = 256 * 1024 };

typedef uint32_t command(const ember_bytes *, size_t, const ember_file *, size_t, ember_answer *);

static ember_bytes words[4096];
static ember_file files[MOST_FILES];
static size_t n_words, n_files;

/* ---- files */

static void fail(const char *what) {
  perror(what);
  exit(125);
}

static ember_block contents(const char *name, size_t size) {
  FILE *file = fopen(name, "rb");
  ember_block block = {__real_malloc(size + 1), size};
  if (!file || !block.at || fread(block.at, 1, size, file) != size) fail(name);
  fclose(file);
  return block;
}

static int lend(const char *path, const struct stat *status, int kind, struct FTW *where) {
  (void)where;
  if (kind != FTW_F || n_files == MOST_FILES) return 0;
  ember_block block = contents(path, (size_t)status->st_size);
  char *name = strdup(path + 2);
  files[n_files].name = ember_text(name);
  files[n_files].bytes.at = block.at;
  files[n_files++].bytes.len = block.len;
  return 0;
}

/* The name `-` is standard input, as for the programs. */
static void lend_input(void) {
  static unsigned char room[1 << 20];
  if (n_files == MOST_FILES) return;
  files[n_files].name = ember_text("-");
  files[n_files].bytes.at = room;
  files[n_files++].bytes.len = fread(room, 1, sizeof room, stdin);
}

static void write_file(const ember_named *named) {
  char name[4096];
  size_t i;
  if (named->name.len >= sizeof name) fail("a name is too long");
  memcpy(name, named->name.at, named->name.len);
  name[named->name.len] = 0;
  for (i = 1; i < named->name.len; i++)
    if (name[i] == '/') {
      name[i] = 0;
      mkdir(name, 0777);
      name[i] = '/';
    }
  FILE *file = fopen(name, "wb");
  if (!file || fwrite(named->bytes.at, 1, named->bytes.len, file) != named->bytes.len || fclose(file)) fail(name);
}

/* ---- answers */

static int same_block(const ember_block *a, const ember_block *b) {
  return a->len == b->len && (a->len == 0 || memcmp(a->at, b->at, a->len) == 0);
}

static int same_answer(const ember_answer *a, const ember_answer *b) {
  size_t i;
  if (a->status != b->status || a->file != b->file || a->place != b->place || a->n_files != b->n_files) return 0;
  for (i = 0; i < a->n_files; i++)
    if (!same_block(&a->files[i].name, &b->files[i].name) || !same_block(&a->files[i].bytes, &b->files[i].bytes)) return 0;
  return same_block(&a->out, &b->out) && same_block(&a->err, &b->err);
}

static int run(command *call) {
  ember_answer answer;
  size_t i;
  int status = (int)call(words, n_words, files, n_files, &answer);
  for (i = 0; i < answer.n_files; i++) write_file(&answer.files[i]);
  int is_lost = fwrite(answer.out.at, 1, answer.out.len, stdout) != answer.out.len || fflush(stdout);
  if (is_lost)
    fputs("ember-mesh: cannot write to standard output\n", stderr);
  else
    fwrite(answer.err.at, 1, answer.err.len, stderr);
  ember_answer_free(&answer);
  if (blocks) fprintf(stderr, "%ld blocks are left\n", blocks);
  return blocks ? 125 : is_lost ? EMBER_NOT_WRITTEN : status;
}

/* ---- want of memory */

static int run_with_requests(command *call, const ember_answer *whole, long requests, int *is_met) {
  ember_answer answer;
  size_t i, lines = 0;
  blocks = 0;
  requests_left = requests;
  call(words, n_words, files, n_files, &answer);
  *is_met = requests_left > 0;
  requests_left = -1;
  for (i = 0; i < answer.err.len; i++) lines += answer.err.at[i] == '\n';
  int right = same_answer(&answer, whole) || (answer.status == EMBER_NO_MEMORY && !answer.out.at && !answer.files && lines <= 1);
  ember_answer_free(&answer);
  if (!right || blocks) printf("%ld requests: status %u, %zu lines, %ld blocks are left\n", requests, answer.status, lines, blocks);
  return right && !blocks;
}

static int try_memory(command *call) {
  ember_answer whole;
  int wrong = 0, is_met;
  long requests;
  call(words, n_words, files, n_files, &whole);
  long given = blocks;
  for (refuses_all = 0; refuses_all < 2; refuses_all++)
    for (requests = is_met = 0; !is_met; requests++) wrong += !run_with_requests(call, &whole, requests, &is_met);
  printf("status %u, %ld requests for memory, %d wrong\n", whole.status, requests - 1, wrong);
  blocks = given;
  ember_answer_free(&whole);
  return wrong || blocks;
}

/* ---- threads */

static command *of_threads;
static ember_answer wanted;

static void *repeat(void *other) {
  ember_answer answer;
  int i;
  for (i = 0; i < CALLS; i++) {
    of_threads(words, n_words, files, n_files, &answer);
    *(int *)other += !same_answer(&answer, &wanted);
    ember_answer_free(&answer);
  }
  return NULL;
}

static int try_threads(command *call) {
  pthread_t threads[THREADS];
  int other[THREADS] = {0}, i, all = 0;
  pthread_attr_t room;
  pthread_attr_init(&room);
  pthread_attr_setstacksize(&room, STACK);
  of_threads = call;
  call(words, n_words, files, n_files, &wanted);
  for (i = 0; i < THREADS; i++)
    if (pthread_create(&threads[i], &room, repeat, &other[i])) fail("thread");
  for (i = 0; i < THREADS; i++) {
    pthread_join(threads[i], NULL);
    all += other[i];
  }
  printf("status %u, %d calls, %d others\n", wanted.status, THREADS * CALLS, all);
  ember_answer_free(&wanted);
  return all != 0;
}

int main(int argc, char **argv) {
  const char *name = strrchr(argv[0], '/') ? strrchr(argv[0], '/') + 1 : argv[0];
  int is_program = strcmp(name, "ember") == 0 || strcmp(name, "ember-mesh") == 0, first = is_program ? 1 : 3, i;
  if (!ember_runs_here() || ember_abi() != EMBER_ABI || argc < first) return 125;
  if (nftw(".", lend, 16, FTW_PHYS)) fail("files");
  if (is_program) lend_input();
  for (i = first; i < argc && n_words < sizeof words / sizeof *words; i++) words[n_words++] = ember_text(argv[i]);
  command *call = strcmp(is_program ? name : argv[2], "ember") == 0 ? ember_command : ember_mesh_command;
  if (is_program) return run(call);
  return strcmp(argv[1], "memory") == 0 ? try_memory(call) : try_threads(call);
}
