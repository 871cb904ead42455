/* The first mesh without the second: difference A B OUT */
#include <ember.h>
#include <stdio.h>

/* The bytes of a file. */
static ember_bytes read_file(const char *name) {
  ember_bytes bytes = {NULL, 0};
  FILE *file = fopen(name, "rb");
  long size;
  uint8_t *at;
  if (!file || fseek(file, 0, SEEK_END) || (size = ftell(file)) < 0) return bytes;
  rewind(file);
  at = (uint8_t *)malloc((size_t)size + 1);
  if (at && fread(at, 1, (size_t)size, file) == (size_t)size) {
    bytes.at = at;
    bytes.len = (size_t)size;
  }
  fclose(file);
  return bytes;
}

int main(int argc, char **argv) {
  ember_bytes words[5];
  ember_file files[2];
  ember_answer answer;
  uint32_t status;
  int i;
  if (argc != 4) {
    fputs("usage: difference A B OUT\n", stderr);
    return 1;
  }
  if (!ember_runs_here() || ember_abi() != EMBER_ABI) return 1;
  words[0] = ember_text("difference");
  words[1] = ember_text("-o");
  words[2] = ember_text(argv[3]);
  for (i = 0; i < 2; i++) {
    words[3 + i] = files[i].name = ember_text(argv[1 + i]);
    files[i].bytes = read_file(argv[1 + i]);
    if (!files[i].bytes.at) {
      fprintf(stderr, "cannot read %s\n", argv[1 + i]);
      return 1;
    }
  }
  status = ember_mesh_command(words, 5, files, 2, &answer);
  fwrite(answer.err.at, 1, answer.err.len, stderr);
  if (status == EMBER_DONE) {
    FILE *out = fopen(argv[3], "wb");
    if (!out || fwrite(answer.files[0].bytes.at, 1, answer.files[0].bytes.len, out) != answer.files[0].bytes.len || fclose(out))
      status = EMBER_NOT_WRITTEN;
  } else if (answer.file > 0) {
    fprintf(stderr, "the fault is in file %u, at place %llu\n", answer.file, (unsigned long long)answer.place);
  }
  ember_answer_free(&answer);
  for (i = 0; i < 2; i++) free((void *)files[i].bytes.at);
  return (int)status;
}
