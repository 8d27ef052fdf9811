// Verifies proofs over one circuit, each in a thread:  verify CIRCUIT PUBLIC PROOF..
// Prints a line for each proof, in order. Ends with the greatest answer.
#include "lzk.h"
#include <algorithm>
#include <fstream>
#include <future>
#include <iostream>
#include <iterator>
#include <string>
#include <vector>

static std::string read_file(const char *name) {
  std::ifstream file(name, std::ios::binary);
  return {std::istreambuf_iterator<char>(file), std::istreambuf_iterator<char>()};
}

static const uint8_t *start(const std::string &bytes) { return reinterpret_cast<const uint8_t *>(bytes.data()); }

static uint32_t verify(const std::string &circuit, const std::string &numbers, const std::string &proof) {
  return lzk_verify(start(circuit), circuit.size(), start(numbers), numbers.size(), start(""), 0, start(proof), proof.size());
}

int main(int count, char **words) {
  if (count < 4) {
    std::cerr << "verify CIRCUIT PUBLIC PROOF..\n";
    return 64;
  }
  const std::string circuit = read_file(words[1]), numbers = read_file(words[2]);
  std::vector<std::future<uint32_t>> answers;
  for (int i = 3; i < count; i++)
    answers.push_back(std::async(std::launch::async, [&, i] { return verify(circuit, numbers, read_file(words[i])); }));
  uint32_t greatest = 0;
  for (auto &answer : answers) {
    const uint32_t number = answer.get();
    greatest = std::max(greatest, number);
    std::cout << (number == LZK_ACCEPTED ? "accepted" : number == LZK_REJECTED ? "rejected" : "refused") << "\n";
  }
  return static_cast<int>(greatest);
}
