/* The C library with requests for memory that can be refused, as a shared library for tests/lib/python_memory.py: it is linked with --wrap for malloc,
   realloc and free, and exports these functions beside the library's own. */
#include "counted_memory.h"

void ember_test_refuse(long, int);
int ember_test_end(void);
long ember_test_blocks(void);
void ember_test_free(void *);

/* Meets so many further requests of this thread, and refuses those behind them: all, or only the next. */
void ember_test_refuse(long requests, int all) {
  refuses_all = all;
  requests_left = requests;
}

/* Meets all requests again. Returns whether none was refused. */
int ember_test_end(void) {
  int is_met = requests_left > 0;
  requests_left = -1;
  return is_met;
}

/* How many blocks the library gave and nobody freed by ember_test_free. */
long ember_test_blocks(void) { return blocks; }

void ember_test_free(void *block) { __wrap_free(block); }
