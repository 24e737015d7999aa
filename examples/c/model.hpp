// A model of the heap that C sees: strings with their forms, ids, words, slots, what agents know and have reserved, and which refusal comes
// first. Written from jsstr.h and docs/HEAP.md, for model.cpp, which makes each call in both.
#ifndef MODEL_HPP
#define MODEL_HPP
#include "jsstr_unchecked.h"
#include <algorithm>
#include <cstdint>
#include <deque>
#include <initializer_list>
#include <string>
#include <vector>

namespace model {

using Text = std::u16string;
using Bytes = std::basic_string<uint8_t>;

// An answer of any kind: its status, and its numbers in the order of its fields.
// Ids and words.
struct Use {
  uint32_t ids, words;
};

struct Answer {
  uint32_t numbers[7] = {};
  Answer(std::initializer_list<uint32_t> given) { std::copy(given.begin(), given.end(), numbers); }
  uint32_t status() const { return numbers[0]; }
  bool is_done() const { return status() == JSSTR_DONE; }
  bool operator==(const Answer &other) const { return std::equal(numbers, numbers + 7, other.numbers); }
};

enum Form { UNBORN, FLAT, CONS, SLICED, THIN };

// A string: its units; and its form with the ids that it names, of a slice the parent and the offset.
struct String {
  Form form = UNBORN;
  bool wide = false, fixed = false;
  uint32_t first = 0, second = 0;
  Text units;
};

inline bool is_wide(const Text &units) { return std::any_of(units.begin(), units.end(), [](char16_t it) { return it > 255; }); }
inline uint32_t words_of(size_t length, bool wide) { return uint32_t(wide ? (length + 3) / 4 : (length + 7) / 8); }
inline uint32_t words_of(const Text &units) { return words_of(units.size(), is_wide(units)); }
inline uint32_t hash_of(const Text &units) {
  uint32_t hash = 0;
  for (char16_t it : units) hash = hash * 31 + it;
  return hash;
}

// From this length on joins and cuts copy nothing.
constexpr size_t LINKED = 13;

struct Heap {
  jsstr_size size;
  uint32_t limit, shares, ids = 0, words = 0;
  std::vector<String> strings;
  std::vector<jsstr_id> slots;
  Heap(jsstr_size size, uint32_t shares, uint32_t limit)
    : size(size), limit(limit), shares(shares), strings(size.ids), slots(size.slots, JSSTR_NO_STRING) {}

  uint32_t used_slots() const { return uint32_t(slots.size() - std::count(slots.begin(), slots.end(), JSSTR_NO_STRING)); }
  Answer no_ids() const { return {JSSTR_NO_IDS, 0, ids, 1, size.ids}; }
  Answer no_words(uint32_t want) const { return {JSSTR_NO_WORDS, 0, words, want, size.words}; }
  Answer no_slots() const { return {JSSTR_NO_SLOTS, 0, 0, 0, size.slots}; }

  // Whether there are so many words; then they are claimed.
  bool claims(uint32_t count) {
    if (count > size.words - words) return false;
    words += count;
    return true;
  }

  // The slot for these units: the one that has them, else the first free one on their path, else none, which is the number of slots.
  uint32_t slot_for(const Text &units) const {
    for (uint32_t i = 0; i < size.slots; i++) {
      uint32_t slot = uint32_t((uint64_t(hash_of(units)) % size.slots + i) % size.slots);
      if (slots[slot] == JSSTR_NO_STRING || strings[slots[slot]].units == units) return slot;
    }
    return size.slots;
  }

  // The string whose form tells where the units of s lie.
  const String &seen(jsstr_id s) const { return strings[s].form == THIN ? strings[strings[s].first] : strings[s]; }

  // Makes sure that s is no rope.
  Answer settle(jsstr_id s) {
    String &it = strings[s];
    if (it.form != CONS) return {JSSTR_DONE};
    uint32_t count = words_of(it.units.size(), it.wide);
    if (!claims(count)) return no_words(count);
    it.form = FLAT;
    it.first = it.second = 0;
    return {JSSTR_DONE};
  }
};

// How many renewals of ids there is memory for yet.
inline uint32_t renewals = UINT32_MAX;

// An agent of a heap; without one a handle of nothing.
struct Agent {
  jsstr_agent handle = {};
  Heap *heap = nullptr;
  uint32_t share = 0;
  uint64_t number = 0, giver = 0;
  std::vector<bool> known, interned;
  std::deque<jsstr_id> ids;      // what it reserved, and has left
  uint32_t words = 0, end = 0;   // of words, and where they end
  Use blocks = {0, 0};

  bool knows(jsstr_id s) const { return heap && s < heap->size.ids && known[s]; }
  bool has_interned(jsstr_id s) const { return knows(s) && interned[s]; }
  uint32_t seen_slots() const { return uint32_t(std::count(interned.begin(), interned.end(), true)); }

  Answer answers(jsstr_id s, bool is_key = false) {
    known[s] = true;
    if (is_key) interned[s] = true;
    return {JSSTR_DONE, s};
  }

  // Words behind those that are left; where they don't begin where these end, these are lost.
  void keep_words(uint32_t count) {
    if (!count) return;
    words = end == heap->words - count ? words + count : count;
    end = heap->words;
  }

  void keep_ids(uint32_t count) {
    while (count--) ids.push_back(heap->ids++);
  }

  Answer reserve(uint32_t id_count, uint32_t word_count) {
    if (!heap->claims(word_count)) return heap->no_words(word_count);
    keep_words(word_count);
    uint32_t count = std::min(id_count, heap->size.ids - heap->ids);
    keep_ids(count);
    return count < id_count ? heap->no_ids() : Answer{JSSTR_DONE};
  }

  // What is reserved is renewed for a string that needs at most so many words. Without memory for the list of the ids nothing is claimed.
  void renew(uint32_t most) {
    bool no_ids = ids.empty(), few = words < most;
    if (!(no_ids || few) || (no_ids && !(blocks.ids && renewals)) || (few && !blocks.words)) return;
    if (few && !heap->claims(std::max(most, blocks.words))) return;
    if (few) keep_words(std::max(most, blocks.words));
    if (no_ids) renewals--, keep_ids(std::min(blocks.ids, heap->size.ids - heap->ids));
  }

  // A new string of so many words, with an id above a number. What is reserved is renewed before, as for a string of at most `most` words. The
  // string takes the id and the words from that, each where there is what it needs, and claims the rest; one that is interned takes both or neither.
  // A refusal leaves what is reserved, and loses words that were claimed.
  Answer born(String made, uint32_t count, uint32_t most, int64_t above = -1) {
    renew(most);
    bool has_words = count <= words, has_id = !ids.empty() && int64_t(ids.front()) > above;
    if (made.fixed && !(has_words && has_id)) has_words = has_id = false;
    if (!has_words && !heap->claims(count)) return heap->no_words(count);
    if (!has_id && heap->ids == heap->size.ids) return heap->no_ids();
    jsstr_id id = has_id ? ids.front() : heap->ids++;
    if (has_id) ids.pop_front();
    if (has_words) words -= count;
    heap->strings[id] = std::move(made);
    return answers(id);
  }

  Answer make(const Text &units, bool fixed = false) { return copy(units, words_of(units), fixed); }

  Answer copy(const Text &units, uint32_t most, bool fixed = false) {
    return born({FLAT, is_wide(units), fixed, 0, 0, units}, words_of(units), most);
  }

  Answer concat(jsstr_id a, jsstr_id b) {
    const Text &left = heap->strings[a].units, &right = heap->strings[b].units;
    if (left.size() + right.size() > heap->limit) return {JSSTR_TOO_LONG, 0, uint32_t(left.size()), uint32_t(right.size())};
    if (left.empty() || right.empty()) return answers(left.empty() ? b : a);
    Text units = left + right;
    if (units.size() < LINKED) return copy(units, words_of(units.size(), true));
    bool wide = heap->seen(a).wide || heap->seen(b).wide;
    return born({CONS, wide, false, a, b, units}, 0, 0, std::max(a, b));
  }

  Answer slice(jsstr_id s, uint32_t from, uint32_t to) {
    Answer settled = heap->settle(s);
    if (!settled.is_done()) return settled;
    const String &whole = heap->strings[s];
    if (to - from == whole.units.size()) return answers(s);
    Text units = whole.units.substr(from, to - from);
    if (units.size() < LINKED) return copy(units, words_of(units.size(), true));
    bool again = whole.form == SLICED;
    return born({SLICED, heap->seen(s).wide, false, again ? whole.first : s, from + (again ? whole.second : 0), units}, 0, 0, s);
  }

  // Puts a string into a free slot, or answers the one that is there; `made` makes it.
  template <class Make> Answer enter(const Text &units, Make made) {
    uint32_t slot = heap->slot_for(units);
    if (slot == heap->size.slots) return heap->no_slots();
    if (heap->slots[slot] == JSSTR_NO_STRING) {
      Answer header = made();
      if (!header.is_done()) return header;
      heap->slots[slot] = header.numbers[1];
    }
    return answers(heap->slots[slot], true);
  }

  Answer intern_units(const Text &units) {
    return enter(units, [&] { return make(units, true); });
  }

  Answer intern(jsstr_id s) {
    Answer settled = heap->settle(s);
    if (!settled.is_done()) return settled;
    const String was = heap->strings[s];
    if (was.form == THIN) return answers(was.first, true);
    Answer key = enter(was.units, [&] { return was.form == SLICED ? make(was.units, true) : born({FLAT, was.wide, true, 0, 0, was.units}, 0, 0); });
    if (key.is_done() && !was.fixed) heap->strings[s] = {THIN, false, false, key.numbers[1], 0, was.units};
    return key;
  }

  Answer find(const Text &units) {
    uint32_t slot = heap->slot_for(units);
    if (slot == heap->size.slots || heap->slots[slot] == JSSTR_NO_STRING) return {JSSTR_NONE};
    return answers(heap->slots[slot], true);
  }

  Answer adopt(uint32_t slot) {
    if (heap->slots[slot] == JSSTR_NO_STRING) return {JSSTR_NONE};
    return answers(heap->slots[slot], true);
  }

  void split(uint32_t give, uint64_t new_number, Agent &out) {
    out.heap = heap;
    out.share = give;
    share -= give;
    out.number = new_number;
    out.giver = number;
    out.known = known;
    out.interned = interned;
  }

  void join(Agent &other) {
    share += other.share;
    for (uint32_t i = 0; i < heap->size.ids; i++) {
      known[i] = known[i] || other.known[i];
      interned[i] = interned[i] || other.interned[i];
    }
    if (ids.empty()) ids = other.ids;
    if (!words) words = other.words, end = other.end;
    other = Agent();
  }
};

// The units that bytes spell, by UTF-8 or by WTF-8; `fault` is how many of the bytes do, where not all of them do, else their number.
struct Spelled {
  Text units;
  size_t fault = 0;

  static uint32_t length_of(uint8_t lead) { return lead < 0x80 ? 1 : lead < 0xC2 ? 0 : lead < 0xE0 ? 2 : lead < 0xF0 ? 3 : lead < 0xF5 ? 4 : 0; }

  Spelled(const Bytes &bytes, bool is_wtf) {
    bool after_lead = false; // behind a lead surrogate in three bytes
    while (fault < bytes.size()) {
      uint32_t length = length_of(bytes[fault]);
      if (!length || length > bytes.size() - fault) return;
      uint32_t point = length == 1 ? bytes[fault] : bytes[fault] & (0x7Fu >> length);
      for (uint32_t i = 1; i < length; i++) {
        if ((bytes[fault + i] & 0xC0) != 0x80) return;
        point = point << 6 | (bytes[fault + i] & 0x3Fu);
      }
      bool is_surrogate = point >= 0xD800 && point < 0xE000;
      if ((length == 3 && point < 0x800) || (length == 4 && point < 0x10000) || point > 0x10FFFF) return;
      if (is_surrogate && (!is_wtf || (after_lead && point >= 0xDC00))) return;
      after_lead = is_surrogate && point < 0xDC00;
      if (point > 0xFFFF) {
        units += char16_t(0xD7C0 + (point >> 10));
        units += char16_t(0xDC00 + (point & 0x3FF));
      } else units += char16_t(point);
      fault += length;
    }
  }
};

// The UTF-8 of units; of a surrogate in no pair three bytes, its own or those of U+FFFD. `unpaired` is the first such place, if there is one.
struct Utf8 {
  Bytes bytes;
  size_t unpaired = SIZE_MAX;

  Utf8(const Text &units, bool replaces) {
    for (size_t i = 0; i < units.size(); i++) {
      uint32_t point = units[i];
      if (point >= 0xD800 && point < 0xE000) {
        if (point < 0xDC00 && i + 1 < units.size() && units[i + 1] >= 0xDC00 && units[i + 1] < 0xE000)
          point = 0x10000 + ((point - 0xD800) << 10) + (units[++i] - 0xDC00u);
        else {
          unpaired = std::min(unpaired, i);
          if (replaces) point = 0xFFFD;
        }
      }
      put(point);
    }
  }

  void put(uint32_t point) {
    if (point < 0x80) { bytes += uint8_t(point); return; }
    uint32_t more = point < 0x800 ? 1 : point < 0x10000 ? 2 : 3;
    bytes += uint8_t((0xF00u >> (more + 1) & 0xF0) | point >> 6 * more);
    while (more--) bytes += uint8_t(0x80 | (point >> 6 * more & 0x3F));
  }
};

// ---- The answers that units alone give

inline Answer value(uint32_t n) { return {JSSTR_DONE, n}; }

// An answer of jsstr_to_utf8 or jsstr_to_latin1 to a string that spells these bytes, where all its units have some.
inline Answer encoded(const Bytes &bytes, size_t unmapped, size_t room, Bytes &written) {
  if (unmapped != SIZE_MAX) return {JSSTR_UNMAPPED, uint32_t(unmapped)};
  if (room >= bytes.size()) written = bytes;
  return {uint32_t(room < bytes.size() ? JSSTR_NO_ROOM : JSSTR_DONE), 0, uint32_t(bytes.size())};
}

inline Answer array_index(const Text &units) {
  uint64_t number = 0;
  for (char16_t it : units) {
    if (it < '0' || it > '9' || units.size() > 10) return {JSSTR_NONE};
    number = number * 10 + (it - '0');
  }
  bool is = !units.empty() && (units[0] != '0' || units.size() == 1) && number < UINT32_MAX;
  return is ? value(uint32_t(number)) : Answer{JSSTR_NONE};
}

inline Answer order(const Text &a, const Text &b) { return value(uint32_t(a < b ? -1 : a == b ? 0 : 1)); }

inline Answer place(size_t at) { return at == Text::npos ? Answer{JSSTR_NONE} : value(uint32_t(at)); }

} // namespace model
#endif
