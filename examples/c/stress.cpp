// Eight threads, each with an agent, make, join, cut, read and intern strings for some seconds, and compare
// each answer with std::u16string. They put the slots of keys on a board, from which the others adopt them, and
// look how full the heap is, and reserve ids and words for later strings, or blocks by which that is renewed. In the end all have the same number for the same key.
//
//     stress [SECONDS [THREADS]]
#include "jsstr.h"
#include <atomic>
#include <chrono>
#include <cstdio>
#include <cstdlib>
#include <string>
#include <thread>
#include <unordered_map>
#include <vector>

#define CHECK(c) do { if (!(c)) { std::printf("line %d: %s\n", __LINE__, #c); std::exit(1); } } while (0)

constexpr uint32_t KEYS = 512, SLOTS = 4096;
using Text = std::u16string;

// For each key its slot plus one, once somebody has put it there. What hands it over is a release and an acquire.
using Board = std::vector<std::atomic<uint32_t>>;

// What a worker writes beside its agent lies in no other worker's cache line.
struct alignas(64) Worker {
  jsstr_agent agent{};
  jsstr_builder built{};
  Board *board = nullptr;
  jsstr_room seen{};
  uint64_t state = 1;
  uint64_t calls = 0;
  std::unordered_map<jsstr_id, Text> texts;
  std::vector<jsstr_id> ids;
  std::vector<jsstr_id> keys = std::vector<jsstr_id>(KEYS, UINT32_MAX);
  std::vector<uint32_t> slots = std::vector<uint32_t>(KEYS, UINT32_MAX);
  bool full = false;

  uint32_t chance(uint32_t below) {
    state = state * 6364136223846793005u + 1442695040888963407u;
    return uint32_t((state >> 33) % below);
  }

  // Whether there is an answer, and then with these units.
  bool answered(jsstr_answer s, const Text &text) {
    calls++;
    if (s.status == JSSTR_NO_IDS || s.status == JSSTR_NO_WORDS) { full = true; return false; }
    CHECK(s.status == JSSTR_DONE);
    auto at = texts.emplace(s.id, text);
    CHECK(at.first->second == text);
    if (at.second) ids.push_back(s.id);
    return true;
  }

  // Where what is reserved suffices, it is taken, and the string is never refused.
  jsstr_id made(const Text &text) {
    jsstr_counts before = jsstr_reserved(&agent);
    bool enough = before.ids && before.words >= (text.size() + 3) / 4;
    jsstr_answer s = jsstr_from_units(&agent, reinterpret_cast<const uint16_t *>(text.data()), text.size());
    CHECK(!enough || (s.status == JSSTR_DONE && jsstr_reserved(&agent).ids == before.ids - 1));
    return answered(s, text) ? s.id : UINT32_MAX;
  }

  // What is missing then is renewed by these blocks, or isn't renewed.
  void renew() { CHECK(jsstr_renew(&agent, chance(2) ? chance(20) : 0, chance(2) ? chance(60) : 0) == JSSTR_DONE); }

  // A few ids and words for what is made later. What isn't there is reported, and less of it is reserved.
  void reserve() {
    jsstr_counts before = jsstr_reserved(&agent);
    uint32_t count = chance(20), size = chance(60);
    jsstr_answer s = jsstr_reserve(&agent, count, size);
    jsstr_counts after = jsstr_reserved(&agent);
    if (s.status == JSSTR_DONE) CHECK(s.id == JSSTR_NO_STRING && after.ids == before.ids + count && after.words >= size);
    else {
      CHECK((s.status == JSSTR_NO_IDS && after.ids < before.ids + count) || (s.status == JSSTR_NO_WORDS && after.ids == before.ids && after.words == before.words));
      full = true;
    }
  }

  static Text key(uint32_t number) {
    std::string digits = std::to_string(number);
    Text text = number % 2 ? u"\u4E16 key " : u"the key ";
    return text.append(digits.begin(), digits.end());
  }

  // The string of a key has one number, and one slot, whoever made it.
  bool is_key(uint32_t number, jsstr_answer one) {
    if (!answered(one, key(number))) return false;
    CHECK(keys[number] == UINT32_MAX || keys[number] == one.id);
    keys[number] = one.id;
    jsstr_number slot = jsstr_slot_of(&agent, one.id);
    CHECK(slot.status == JSSTR_DONE && slot.value < SLOTS && (slots[number] == UINT32_MAX || slots[number] == slot.value));
    slots[number] = slot.value;
    return true;
  }

  void adopt() {
    uint32_t number = chance(KEYS), slot = (*board)[number].load(std::memory_order_acquire);
    if (slot) {
      jsstr_answer one = jsstr_adopt(&agent, slot - 1);
      CHECK(one.status == JSSTR_DONE && is_key(number, one) && slots[number] == slot - 1);
      Text got(key(number).size(), u'?');
      CHECK(jsstr_read(&agent, one.id, 0, reinterpret_cast<uint16_t *>(&got[0]), got.size()) == JSSTR_DONE && got == key(number));
      CHECK(jsstr_find_units(&agent, reinterpret_cast<const uint16_t *>(got.data()), got.size()).id == one.id);
      return;
    }
    if (slots[number] != UINT32_MAX) (*board)[number].store(slots[number] + 1, std::memory_order_release);
    // Any slot: it is free, or has a key, which some thread may be putting there just now.
    jsstr_answer any = jsstr_adopt(&agent, chance(SLOTS + 2));
    if (any.status == JSSTR_BAD_ARGUMENT || any.status == JSSTR_NONE) { CHECK(any.id == JSSTR_NO_STRING); return; }
    CHECK(any.status == JSSTR_DONE && jsstr_is_interned(&agent, any.id).holds);
    Text got(jsstr_length(&agent, any.id).value, u'?');
    CHECK(jsstr_read(&agent, any.id, 0, reinterpret_cast<uint16_t *>(&got[0]), got.size()) == JSSTR_DONE);
    uint32_t which = 0;
    for (char16_t c : got) which = c < u'0' || c > u'9' ? which : which * 10 + (c - u'0');
    CHECK(which < KEYS && got == key(which) && is_key(which, any));
  }

  // Both counters never fall, and count at least what this agent knows.
  void look() {
    jsstr_room room = jsstr_room_of(&agent);
    CHECK(room.status == JSSTR_DONE && room.ids >= seen.ids && room.words >= seen.words && room.seen_slots >= seen.seen_slots);
    CHECK(room.ids >= ids.size() && room.ids <= room.all_ids && room.words <= room.all_words && room.seen_slots <= KEYS);
    CHECK(room.all_ids == 400000 && room.all_words == 3000000 && room.slots == SLOTS);
    seen = room;
  }

  // A key by a text of its own: a part, a number and bytes.
  void build(uint32_t number) {
    const Text text = key(number);
    std::string digits = std::to_string(number);
    CHECK(jsstr_build_units(&built, reinterpret_cast<const uint16_t *>(text.data()), text.size() - digits.size()) == JSSTR_DONE);
    CHECK(jsstr_build_number(&built, int32_t(number)) == JSSTR_DONE && built.len == text.size());
    jsstr_answer one = jsstr_built_interned(&built, &agent);
    if (!is_key(number, one)) jsstr_drop_builder(&built);
    CHECK(built.len == 0);
  }

  // A few keys in one call, one of them twice.
  void many() {
    constexpr uint32_t COUNT = 8;
    Text all;
    uint32_t numbers[COUNT], ends[COUNT];
    jsstr_id one[COUNT];
    for (uint32_t i = 0; i < COUNT; i++) {
      numbers[i] = i + 1 == COUNT ? numbers[chance(i)] : chance(KEYS);
      all += key(numbers[i]);
      ends[i] = uint32_t(all.size());
    }
    jsstr_batch s = jsstr_intern_many(&agent, reinterpret_cast<const uint16_t *>(all.data()), all.size(), ends, COUNT, one, COUNT);
    CHECK(s.done <= COUNT && (s.status == JSSTR_DONE) == (s.done == COUNT));
    for (uint32_t i = 0; i < s.done; i++) CHECK(is_key(numbers[i], {JSSTR_DONE, one[i], 0, 0, 0}));
    if (s.done < COUNT) is_key(numbers[s.done], {s.status, JSSTR_NO_STRING, s.at, s.want, s.end});
  }

  void step() {
    jsstr_id a = ids[chance(uint32_t(ids.size()))], b = ids[chance(uint32_t(ids.size()))];
    const Text left = texts[a], right = texts[b];
    switch (chance(12)) {
    case 0: {
      jsstr_answer s = jsstr_concat(&agent, a, b);
      if (left.size() + right.size() > 2000) { CHECK(s.status == JSSTR_TOO_LONG); break; }
      answered(s, left + right);
      break;
    }
    case 1: {
      uint32_t from = chance(uint32_t(left.size()) + 1), to = from + chance(uint32_t(left.size()) - from + 1);
      answered(jsstr_slice(&agent, a, from, to), left.substr(from, to - from));
      break;
    }
    case 2: {
      Text got(left.size(), u'?');
      uint32_t status = jsstr_read(&agent, a, 0, reinterpret_cast<uint16_t *>(&got[0]), got.size());
      if (status == JSSTR_NO_WORDS) { full = true; break; }
      CHECK(status == JSSTR_DONE && got == left);
      break;
    }
    case 3: {
      jsstr_order o = jsstr_compare(&agent, a, b);
      if (o.status == JSSTR_NO_WORDS) { full = true; break; }
      int want = left.compare(right);
      CHECK(o.status == JSSTR_DONE && o.order == (want > 0) - (want < 0));
      break;
    }
    case 4: {
      uint32_t number = chance(KEYS);
      const Text text = key(number);
      auto units = reinterpret_cast<const uint16_t *>(text.data());
      jsstr_answer there = jsstr_find_units(&agent, units, text.size()), one;
      if (chance(2)) one = jsstr_intern_units(&agent, units, text.size());
      else {
        jsstr_id s = made(text);
        if (full) break;
        one = jsstr_intern(&agent, s);
      }
      CHECK(there.status == JSSTR_DONE ? one.status == JSSTR_DONE && there.id == one.id : there.status == JSSTR_NONE && keys[number] == UINT32_MAX);
      is_key(number, one);
      break;
    }
    case 5:
      adopt();
      break;
    case 6:
      look();
      break;
    case 7:
      build(chance(KEYS));
      break;
    case 8:
      many();
      break;
    case 9:
      reserve();
      break;
    case 10:
      renew();
      break;
    default:
      CHECK(jsstr_length(&agent, UINT32_MAX - chance(9)).status == JSSTR_BAD_ARGUMENT);
    }
    calls++;
  }
};

int main(int count, char **told) {
  double seconds = count > 1 ? std::atof(told[1]) : 1;
  uint32_t threads = count > 2 ? uint32_t(std::atoi(told[2])) : 8;
  auto end = std::chrono::steady_clock::now() + std::chrono::duration<double>(seconds);
  uint64_t calls = 0, rounds = 0;
  do {
    std::vector<Worker> workers(threads);
    Board board(KEYS);
    CHECK(jsstr_make({400000, 3000000, SLOTS}, threads, 2000, &workers[0].agent) == JSSTR_DONE);
    for (uint32_t i = 1; i < threads; i++) CHECK(jsstr_split(&workers[0].agent, 1, &workers[i].agent) == JSSTR_DONE);
    std::vector<std::thread> running;
    for (uint32_t i = 0; i < threads; i++)
      running.emplace_back([&, i] {
        Worker &w = workers[i];
        w.state = rounds * 1000 + i;
        w.board = &board;
        w.made(u"a string to begin with, not a short one");
        w.made(u"\u4E16\u754C");
        while (!w.full && w.calls < 100000 && std::chrono::steady_clock::now() < end) w.step();
        jsstr_drop_builder(&w.built);
      });
    for (auto &thread : running) thread.join();
    for (uint32_t i = 0; i < threads; i++) {
      calls += workers[i].calls;
      for (uint32_t key = 0; key < KEYS; key++)
        for (uint32_t j = 0; j < i; j++)
          CHECK(workers[i].keys[key] == UINT32_MAX || workers[j].keys[key] == UINT32_MAX
                || (workers[i].keys[key] == workers[j].keys[key] && workers[i].slots[key] == workers[j].slots[key]));
      if (!i) continue;
      CHECK(jsstr_join(&workers[0].agent, &workers[i].agent) == JSSTR_DONE);
      for (auto &it : workers[i].texts) {
        jsstr_number n = jsstr_length(&workers[0].agent, it.first);
        CHECK(n.status == JSSTR_DONE && n.value == it.second.size());
      }
    }
    CHECK(jsstr_free(&workers[0].agent) == JSSTR_DONE);
    rounds++;
  } while (std::chrono::steady_clock::now() < end);
  std::printf("%u threads, %llu heaps, %llu calls, none differs\n", threads, (unsigned long long)rounds, (unsigned long long)calls);
}
