// Shows of a record that its holder is an adult, and verifies it:  policy
#include "lzk.hpp"
#include <cstdio>

int main() try {
  const lzk::policy policy("record 20\nfield birth date at 0\nshow digest\nshow birth at most LATEST\n");
  lzk::bytes record("\x01\x2f\xa6\xc5", 4); // 19900101, the first byte worth most
  record.append(16, '\7');                   // a salt: take 16 random bytes
  const auto made = policy.prove({record, "LATEST 20081129\n"}, "nonce");
  std::printf("%s%s%s\n", policy.lines().c_str(), made.text.c_str(), policy.verify(made.text, "nonce", made.proof).text().c_str());
  try {
    policy.inputs({record, "LATEST 19800101\n"});
  } catch (const lzk::error &error) {
    std::printf("%s\n", error.what());
  }
} catch (const std::exception &error) {
  std::fprintf(stderr, "%s\n", error.what());
  return 1;
}
