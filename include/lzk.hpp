// Longfellow ZK for C++17: include/lzk.h with strings of bytes, exceptions and a desk that frees itself.
//
//   auto circuit = lzk::compile("field goldilocks\npublic y\nprivate x\nassert x*x = y\n");
//   auto proof = lzk::prove(circuit, "9", "3", "nonce");
//   if (lzk::verify(circuit, "9", "nonce", proof)) ..
//
// What is refused is thrown as lzk::error, whose what() says what is wrong, where, and mostly what to do.
//
// The circuit is the statement: take it from your own store, and never from who sends the proof.
#ifndef LZK_HPP
#define LZK_HPP

#include "lzk.h"
#include "lzk_text.h"
#include <array>
#include <memory>
#include <new>
#include <stdexcept>
#include <string>
#include <string_view>

namespace lzk {

using bytes = std::string;       // any bytes
using view = std::string_view;   // the same, of somebody else
using seed_bytes = std::array<uint8_t, 32>;

// What an outcome says, in the words of lzk_text.h.
inline std::string text(const lzk_outcome &found) {
  char room[LZK_MOST_TEXT];
  return lzk_text(&found, room, sizeof room);
}

inline std::string text(const lzk_info &found) {
  char room[LZK_MOST_TEXT];
  return lzk_info_text(&found, room, sizeof room);
}

// Why there is no answer. Out of memory is std::bad_alloc.
class error : public std::runtime_error {
public:
  explicit error(const lzk_outcome &found) : std::runtime_error(text(found)), outcome(found) {}
  lzk_outcome outcome; // of a circuit or public numbers that a verifier refuses: answer, kind, line and offset

  // The name of what is wrong, as `zk` prints it: Magic, TooFew, ..
  const char *name() const { return lzk_meaning_of(outcome.answer, outcome.kind)->name; }
};

// What was found of a proof. It is true where the proof is accepted.
struct [[nodiscard]] verdict {
  lzk_report report;
  explicit operator bool() const { return report.answer == LZK_ACCEPTED; }
  // The line that `zk verify` prints.
  std::string text() const {
    char room[LZK_MOST_TEXT];
    return lzk_report_text(&report, room, sizeof room);
  }
};

namespace detail {
inline const uint8_t *at(view v) { return reinterpret_cast<const uint8_t *>(v.data()); }

inline void check(const lzk_outcome &found) {
  if (found.answer == LZK_NO_MEMORY) throw std::bad_alloc();
  if (found.answer != LZK_DONE) throw error(found);
}

inline void check(uint32_t answer, uint32_t kind = 0, uint32_t line = 0, uint64_t offset = 0) {
  lzk_outcome found = {};
  found.answer = answer, found.kind = kind, found.line = line, found.offset = offset;
  check(found);
}

inline verdict judged(const lzk_report &report) {
  if (report.answer > LZK_REJECTED) check(report.answer, report.kind, report.line, report.offset);
  return {report};
}
} // namespace detail

namespace detail {
// What a call puts into a room, which is made as large as it asks for.
template <typename Call> bytes made(Call call) {
  bytes room(65536, '\0');
  lzk_outcome found;
  while (call(reinterpret_cast<uint8_t *>(&room[0]), room.size(), &found) == LZK_NO_ROOM) room.resize(found.count);
  check(found);
  room.resize(found.count);
  return room;
}
} // namespace detail

inline bytes compile(view source, uint32_t version = 1) {
  return detail::made([&](uint8_t *room, size_t len, lzk_outcome *found) {
    return lzk_compile(version, detail::at(source), source.size(), room, len, found);
  });
}

// The circuit of SHA-256 for messages of so many bytes, 0 to 55.
inline bytes sha_circuit(uint32_t message_len) {
  return detail::made([&](uint8_t *room, size_t len, lzk_outcome *found) { return lzk_sha_circuit(message_len, room, len, found); });
}

// The circuit in version 2.
inline bytes upgrade(view circuit) {
  return detail::made([&](uint8_t *room, size_t len, lzk_outcome *found) {
    return lzk_upgrade(detail::at(circuit), circuit.size(), room, len, found);
  });
}

inline lzk_info circuit_info(view circuit) {
  lzk_info info;
  lzk_circuit_info(detail::at(circuit), circuit.size(), &info);
  detail::check(info.answer, info.kind, 0, info.offset);
  return info;
}

inline void evaluate(view circuit, view public_numbers, view private_numbers) {
  lzk_outcome found;
  lzk_eval(detail::at(circuit), circuit.size(), detail::at(public_numbers), public_numbers.size(), detail::at(private_numbers), private_numbers.size(), &found);
  detail::check(found);
}

// 32 bytes of the system's random numbers: a seed for one proof.
inline seed_bytes random_seed() {
  seed_bytes seed;
  detail::check(lzk_random_seed(seed.data()));
  return seed;
}

// The seed is 32 bytes that nobody else can guess, new for each proof.
inline bytes prove(view circuit, view public_numbers, view private_numbers, view session, const seed_bytes &seed) {
  bytes room(LZK_MOST_PROOF, '\0');
  lzk_outcome found;
  lzk_prove(detail::at(circuit), circuit.size(), detail::at(public_numbers), public_numbers.size(), detail::at(private_numbers), private_numbers.size(),
            detail::at(session), session.size(), seed.data(), reinterpret_cast<uint8_t *>(&room[0]), room.size(), &found);
  detail::check(found);
  room.resize(found.count);
  return room;
}

// The same by a seed of the system's, which is cleared.
inline bytes prove(view circuit, view public_numbers, view private_numbers, view session = {}) {
  struct cleared {
    seed_bytes seed = random_seed();
    ~cleared() {
      for (volatile uint8_t *at = seed.data(); at != seed.data() + seed.size(); at++) *at = 0;
    }
  } const held;
  return prove(circuit, public_numbers, private_numbers, session, held.seed);
}

inline verdict verify(view circuit, view public_numbers, view session, view proof) {
  lzk_report report;
  lzk_explain(detail::at(circuit), circuit.size(), detail::at(public_numbers), public_numbers.size(), detail::at(session), session.size(),
              detail::at(proof), proof.size(), &report);
  return detail::judged(report);
}

// What is shown of a record, and what it takes. The secret is empty where the policy shows nothing of a sealed field,
// and the path where it shows the digest.
struct given {
  view record, values, secret = {}, path = {};
};

// The texts of the public and of the private numbers that show a record.
struct inputs {
  bytes public_numbers, private_numbers;
};

// What a holder sends: a proof, and the text of what is shown.
struct shown {
  bytes proof, text;
};

// A policy: what a record is, and what is shown of it. Its circuit is made once.
//
// Nothing here takes a text of what was shown apart. A service writes it itself from decoded parts, in one form, or
// compares numbers: see lzk.h.
//
//   lzk::policy policy(text);
//   auto made = policy.prove({record, "LATEST 20081129\n"}, "nonce");
//   if (policy.verify(made.text, "nonce", made.proof)) ..
class policy {
public:
  explicit policy(view text) : text_(text) {
    lines_ = detail::made([&](uint8_t *room, size_t len, lzk_outcome *found) { return lzk_policy_show(detail::at(text_), text_.size(), room, len, found); });
    circuit_ = detail::made([&](uint8_t *room, size_t len, lzk_outcome *found) { return lzk_policy_circuit(detail::at(text_), text_.size(), room, len, found); });
  }

  // What a verifier learns, line by line.
  const bytes &lines() const { return lines_; }

  const bytes &circuit() const { return circuit_; }

  // The SHA-256 digest of a record of the policy's size.
  bytes digest(view record) const {
    return detail::made([&](uint8_t *room, size_t len, lzk_outcome *found) {
      return lzk_policy_digest(detail::at(text_), text_.size(), detail::at(record), record.size(), room, len, found);
    });
  }

  // The texts of the numbers that show a record. Of what is not true the error's outcome.check is the place.
  lzk::inputs inputs(const lzk::given &what) const {
    const lzk_policy_given all = raw(what);
    uint64_t first = 0;
    bytes both = detail::made([&](uint8_t *room, size_t len, lzk_outcome *found) {
      const uint32_t answer = lzk_policy_inputs(&all, room, len, found);
      first = found->offset;
      return answer;
    });
    return {both.substr(0, first), both.substr(first)};
  }

  // A proof for a record, by a seed of the system's, and the text of what it shows.
  lzk::shown prove(const lzk::given &what, view session) const {
    const lzk_policy_given all = raw(what);
    const lzk::inputs numbers = inputs(what);
    bytes text = detail::made([&](uint8_t *room, size_t len, lzk_outcome *found) { return lzk_policy_shown(&all, room, len, found); });
    return {lzk::prove(circuit_, numbers.public_numbers, numbers.private_numbers, session), text};
  }

  // The text of the public numbers of what was shown: the first eight are the words of the digest or the root. Compare
  // them and not the text, in which one digest may be written in several ways.
  bytes public_numbers(view text) const {
    return detail::made([&](uint8_t *room, size_t len, lzk_outcome *found) {
      return lzk_policy_public(detail::at(text_), text_.size(), detail::at(text), text.size(), room, len, found);
    });
  }

  // The verdict on a proof of what was shown. Look at what the text says: whether you trust its digest or root, and
  // whether the values are yours.
  verdict verify(view text, view session, view proof) const { return lzk::verify(circuit_, public_numbers(text), session, proof); }

private:
  static lzk_bytes piece(view v) { return {detail::at(v), v.size()}; }
  lzk_policy_given raw(const lzk::given &what) const { return {piece(text_), piece(what.record), piece(what.values), piece(what.secret), piece(what.path)}; }

  bytes text_, lines_, circuit_;
};

// A verifier that is fed a proof while it arrives.
class desk {
public:
  desk(view circuit, view public_numbers, view session) {
    lzk_desk *made;
    detail::check(lzk_desk_open(&made, detail::at(circuit), circuit.size(), detail::at(public_numbers), public_numbers.size(), detail::at(session), session.size()));
    held.reset(made);
  }
  void feed(view piece) { detail::check(lzk_desk_feed(held.get(), detail::at(piece), piece.size())); }
  verdict end() {
    lzk_report report;
    lzk_desk_end(held.get(), &report);
    return detail::judged(report);
  }

private:
  struct free_desk {
    void operator()(lzk_desk *it) const { lzk_desk_free(it); }
  };
  std::unique_ptr<lzk_desk, free_desk> held;
};

} // namespace lzk
#endif
