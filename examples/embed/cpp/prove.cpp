// Compiles, proves and verifies by lzk.hpp.
#include "lzk.hpp"
#include <iostream>
#include <vector>

int main() {
  try {
    const auto circuit = lzk::compile("field goldilocks\npublic y\nprivate x\nassert x*x = y\n");
    const auto proof = lzk::prove(circuit, "9", "3", "nonce");
    lzk::desk desk(circuit, "9", "nonce");
    for (size_t at = 0; at < proof.size(); at += 1400) desk.feed(lzk::view(proof).substr(at, 1400));
    bool both = desk.end() && lzk::verify(circuit, "9", "nonce", proof) && !lzk::verify(circuit, "9", "other", proof);
    // An empty vector has NULL for its bytes, and so has an empty view: both are empty sessions.
    const std::vector<uint8_t> none;
    const auto plain = lzk::prove(circuit, "9", "3", lzk::view(), lzk::random_seed());
    const auto at = [](const std::string &s) { return reinterpret_cast<const uint8_t *>(s.data()); };
    both &= lzk_verify(at(circuit), circuit.size(), at("9"), 1, none.data(), none.size(), at(plain), plain.size()) == LZK_ACCEPTED;
    try {
      lzk::prove(circuit, "9", "4");
      return 1;
    } catch (const lzk::error &found) {
      if (found.outcome.answer != LZK_UNSATISFIED || found.outcome.value[0] != 7) return 1;
      if (std::string(found.what()).rfind("check 0 is 7, and has to be 0: ", 0)) return 1;
    }
    std::cout << (both ? "accepted" : "rejected") << "\n";
    return both ? 0 : 1;
  } catch (const std::exception &found) {
    std::cerr << found.what() << "\n";
    return 1;
  }
}
