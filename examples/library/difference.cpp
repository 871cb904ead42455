// The first mesh without the second: difference A B OUT
#include <ember.h>
#include <fstream>
#include <iostream>
#include <iterator>
#include <stdexcept>
#include <string>
#include <vector>

// An answer that frees what it holds.
struct Answer : ember_answer {
  Answer() : ember_answer() {}
  Answer(const Answer &) = delete;
  Answer &operator=(const Answer &) = delete;
  ~Answer() { ember_answer_free(this); }
};

static std::string read_file(const std::string &name) {
  std::ifstream file(name, std::ios::binary);
  if (!file) throw std::runtime_error("cannot read " + name);
  return std::string(std::istreambuf_iterator<char>(file), {});
}

static ember_bytes lent(const std::string &text) { return {reinterpret_cast<const uint8_t *>(text.data()), text.size()}; }

static std::string text_of(const ember_block &block) {
  return block.len ? std::string(reinterpret_cast<const char *>(block.at), block.len) : std::string();
}

int main(int argc, char **argv) {
  if (argc != 4) {
    std::cerr << "usage: difference A B OUT\n";
    return 1;
  }
  if (!ember_runs_here() || ember_abi() != EMBER_ABI) return 1;
  const std::vector<std::string> words = {"difference", "-o", argv[3], argv[1], argv[2]}, contents = {read_file(argv[1]), read_file(argv[2])};
  std::vector<ember_bytes> lent_words;
  for (const auto &word : words) lent_words.push_back(lent(word));
  const ember_file files[] = {{lent(words[3]), lent(contents[0])}, {lent(words[4]), lent(contents[1])}};
  Answer answer;
  const auto status = ember_mesh_command(lent_words.data(), lent_words.size(), files, 2, &answer);
  std::cerr << text_of(answer.err);
  for (size_t i = 0; i < answer.n_files; i++)
    if (!(std::ofstream(text_of(answer.files[i].name), std::ios::binary) << text_of(answer.files[i].bytes))) return EMBER_NOT_WRITTEN;
  return static_cast<int>(status);
}
