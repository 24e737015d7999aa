// The rows of the heap, by the calls that test their condition, and by those that don't. bench/c_heap.py compiles and
// asks it. HAS_RESERVE, HAS_RENEW and HAS_INTERN_MANY are defined where jsstr.h has these calls.
#if __has_include("jsstr_unchecked.h")
#include "jsstr_unchecked.h"
#else
#include "jsstr.h"
#endif
#include "rows.h"

namespace {

struct Calls {
  const char *name;
  jsstr_answer (*from)(jsstr_agent *, const uint16_t *, size_t);
  jsstr_answer (*from_latin1)(jsstr_agent *, const uint8_t *, size_t);
  jsstr_answer (*concat)(jsstr_agent *, jsstr_id, jsstr_id);
  jsstr_answer (*slice)(jsstr_agent *, jsstr_id, uint32_t, uint32_t);
  jsstr_answer (*settle)(jsstr_agent *, jsstr_id);
  jsstr_answer (*intern)(jsstr_agent *, jsstr_id);
  jsstr_answer (*intern_units)(jsstr_agent *, const uint16_t *, size_t);
  jsstr_place (*index_of)(jsstr_agent *, jsstr_id, jsstr_id, uint32_t);
  uint32_t (*length)(jsstr_agent *, jsstr_id);
  uint32_t (*read)(jsstr_agent *, jsstr_id, uint32_t, uint16_t *, size_t);
  int32_t (*compare)(jsstr_agent *, jsstr_id, jsstr_id);
  bool (*equal)(jsstr_agent *, jsstr_id, jsstr_id);
};

jsstr_answer from_bytes(jsstr_agent *a, const uint8_t *bytes, size_t len) { return jsstr_from_bytes(a, JSSTR_LATIN1, bytes, len); }

constexpr Calls CHECKED = {"checked", jsstr_from_units, from_bytes, jsstr_concat, jsstr_slice, jsstr_settle, jsstr_intern,
  jsstr_intern_units, jsstr_index_of,
  [](jsstr_agent *a, jsstr_id s) { jsstr_number n = jsstr_length(a, s); want(n.status == JSSTR_DONE); return n.value; },
  jsstr_read,
  [](jsstr_agent *a, jsstr_id s, jsstr_id t) { jsstr_order o = jsstr_compare(a, s, t); want(o.status == JSSTR_DONE); return o.order; },
  [](jsstr_agent *a, jsstr_id s, jsstr_id t) { jsstr_truth it = jsstr_equal(a, s, t); want(it.status == JSSTR_DONE); return it.holds; }};
// (what has one form is the same call)
constexpr Calls UNCHECKED = {"unchecked", jsstr_from_units, from_bytes, jsstr_concat_unchecked, jsstr_slice_unchecked, jsstr_settle,
  jsstr_intern_unchecked, jsstr_intern_units, jsstr_index_of, jsstr_length_unchecked, jsstr_read, CHECKED.compare, jsstr_equal_unchecked};

using Ids = std::vector<jsstr_id>;

// A handle on a line of the cache of its own, and one beside those of other threads.
struct alignas(64) Apart { jsstr_agent agent{}; };
struct Beside { jsstr_agent agent{}; };

template <class Handle> class HeapOf {
public:
  HeapOf(uint32_t ids, uint32_t words, uint32_t slots = 1, uint32_t threads = 1) : handles(threads) {
    want(jsstr_make({ids, words, slots}, threads, JSSTR_MAX_LENGTH, agent(0)) == JSSTR_DONE);
    for (uint32_t t = 1; t < threads; t++) want(jsstr_split(agent(0), 1, agent(t)) == JSSTR_DONE);
  }
  HeapOf(const HeapOf &) = delete;
  HeapOf &operator=(const HeapOf &) = delete;
  ~HeapOf() { for (Handle &it : handles) jsstr_free(&it.agent); }
  jsstr_agent *agent(uint32_t t = 0) { return &handles[t].agent; }

private:
  std::vector<Handle> handles;
};

using Heap = HeapOf<Apart>;

// Whether a call was done, whose status comes alone or with more.
[[maybe_unused]] bool is_done(uint32_t status) { return status == JSSTR_DONE; }
template <class Answer> bool is_done(const Answer &answer) { return answer.status == JSSTR_DONE; }

jsstr_id id_of(const jsstr_answer &answer) {
  want(is_done(answer));
  return answer.id;
}

const uint16_t *units_of(const Text &text) { return reinterpret_cast<const uint16_t *>(text.data()); }
jsstr_id made_of(jsstr_agent *agent, const Text &text) { return id_of(jsstr_from_units(agent, units_of(text), text.size())); }
jsstr_id interned_of(jsstr_agent *agent, const Text &text) { return id_of(jsstr_intern_units(agent, units_of(text), text.size())); }

Ids all_made(jsstr_agent *agent, const std::vector<Text> &texts) {
  Ids ids;
  for (const Text &it : texts) ids.push_back(made_of(agent, it));
  return ids;
}

Ids all_interned(jsstr_agent *agent, const std::vector<Text> &texts) {
  Ids ids;
  for (const Text &it : texts) ids.push_back(interned_of(agent, it));
  return ids;
}

// Room for every string of a row of short ones, its sources and its keys.
constexpr uint32_t IDS = 2 * STRINGS + KEYS, WORDS = 5 * IDS / 2, SLOTS = 262139;

// What comes before string number i of an agent is made: nothing, and it claims its own id and words; or, before each
// block of strings, a reserve for these.
using Claim = void (*)(jsstr_agent *, uint32_t);
void each_its_own(jsstr_agent *, uint32_t) {}
#ifdef HAS_RESERVE
constexpr uint32_t BLOCK = 1024;
void by_blocks(jsstr_agent *agent, uint32_t i) {
  if (i % BLOCK == 0) want(is_done(jsstr_reserve(agent, BLOCK, 2 * BLOCK)));
}
#endif

// ---- Making, joining and cutting

template <const Calls &call, Claim claim> double make() {
  Heap heap(IDS, WORDS);
  return timed(STRINGS, [&](uint32_t i) {
    const Text &text = pool()[i % POOL];
    claim(heap.agent(), i);
    use(id_of(call.from(heap.agent(), units_of(text), text.size())));
  });
}

// Each thread's strings are of its own agent.
template <class One> double over_own(uint32_t threads, uint32_t count, const std::vector<Text> &texts, One one) {
  Heap heap(IDS, WORDS, SLOTS, threads);
  std::vector<Ids> made;
  for (uint32_t t = 0; t < threads; t++) made.push_back(all_made(heap.agent(t), texts));
  return timed_threads(threads, count, [&](uint32_t t, uint32_t i) { one(heap.agent(t), made[t], i); });
}

template <const Calls &call, Claim claim> double join() {
  return over_own(1, STRINGS, pool(), [](jsstr_agent *agent, const Ids &made, uint32_t i) {
    claim(agent, i);
    use(id_of(call.concat(agent, made[i % POOL], made[(i + 1) % POOL])));
  });
}

template <const Calls &call, Claim claim> double cut(uint32_t length) {
  return over_own(1, STRINGS, forties(), [length](jsstr_agent *agent, const Ids &made, uint32_t i) {
    uint32_t from = 1 + i % (39 - length);
    claim(agent, i);
    use(id_of(call.slice(agent, made[i % POOL], from, from + length)));
  });
}

template <const Calls &call> double from_latin1() {
  Heap heap(IDS, WORDS);
  std::vector<std::string> bytes;
  for (const Text &it : pool()) bytes.emplace_back(it.begin(), it.end());
  return timed(STRINGS, [&](uint32_t i) {
    const std::string &it = bytes[i % POOL];
    use(id_of(call.from_latin1(heap.agent(), reinterpret_cast<const uint8_t *>(it.data()), it.size())));
  });
}

template <const Calls &call> double make_long() {
  constexpr uint32_t TIMES = 10;
  Heap heap(TIMES, TIMES * (LONG / 8));
  return timed(TIMES, [&](uint32_t) { use(id_of(call.from(heap.agent(), units_of(long_text()), LONG))); }) / LONG;
}

template <const Calls &call> double join_100() {
  return over_own(1, STRINGS, hundreds(), [](jsstr_agent *agent, const Ids &made, uint32_t i) {
    use(id_of(call.concat(agent, made[i % 64], made[(i + 1) % 64])));
  });
}

// A rope that grows by a unit at a time.
template <const Calls &call> std::pair<jsstr_id, double> grown(Heap &heap) {
  jsstr_id unit = made_of(heap.agent(), u"x"), rope = made_of(heap.agent(), Text(20, u'a'));
  double time = timed(KEYS, [&](uint32_t) { rope = id_of(call.concat(heap.agent(), rope, unit)); });
  return {rope, time};
}

template <const Calls &call> double append() {
  Heap heap(IDS, WORDS);
  return grown<call>(heap).second;
}

template <const Calls &call> double flatten() {
  Heap heap(IDS, WORDS);
  jsstr_id rope = grown<call>(heap).first;
  return timed(1, [&](uint32_t) { use(id_of(call.settle(heap.agent(), rope))); }) / (KEYS + 20);
}

// ---- Reading

template <const Calls &call> double length() {
  Heap heap(IDS, WORDS);
  Ids made = all_made(heap.agent(), keys());
  return timed(STRINGS, [&](uint32_t i) { want(call.length(heap.agent(), made[i % KEYS]) == 9); });
}

template <const Calls &call> double read_short(uint32_t threads) {
  return over_own(threads, threads * STRINGS, nines(), [](jsstr_agent *agent, const Ids &made, uint32_t i) {
    uint16_t units[9];
    want(call.read(agent, made[i % POOL], 0, units, 9) == JSSTR_DONE);
    use(units);
  });
}

template <const Calls &call> double read_long() {
  Heap heap(16, 16 * READ);
  Ids made = all_made(heap.agent(), read_texts());
  static uint16_t units[READ];
  return timed(4000, [&](uint32_t i) {
    want(call.read(heap.agent(), made[i % 16], 0, units, READ) == JSSTR_DONE);
    use(units);
  });
}

template <const Calls &call> double equal_short() {
  Heap heap(IDS, WORDS);
  Ids made = all_made(heap.agent(), keys()), again = all_made(heap.agent(), keys());
  return timed(STRINGS, [&](uint32_t i) { want(call.equal(heap.agent(), made[i % KEYS], again[i % KEYS])); });
}

template <const Calls &call> double equal_long() {
  Heap heap(2, LONG / 4);
  jsstr_id a = made_of(heap.agent(), long_text()), b = made_of(heap.agent(), long_text());
  return timed(20, [&](uint32_t) { want(call.equal(heap.agent(), a, b)); }) / LONG;
}

template <const Calls &call> double compare_long() {
  Heap heap(2, LONG / 4);
  jsstr_id a = made_of(heap.agent(), long_text()), b = made_of(heap.agent(), long_rival());
  return timed(20, [&](uint32_t) { want(call.compare(heap.agent(), a, b) == -1); }) / LONG;
}

template <const Calls &call> double search() {
  Heap heap(2, LONG / 8 + 1);
  jsstr_id hay = made_of(heap.agent(), searched_text()), needle = made_of(heap.agent(), SOUGHT);
  return timed(20, [&](uint32_t) {
    jsstr_place place = call.index_of(heap.agent(), hay, needle, 0);
    want(place.status == JSSTR_DONE && place.at == LONG - 2);
  }) / LONG;
}

// ---- Interning

// Strings that are made before, of units that the table doesn't have; each thread has its part of them.
template <const Calls &call> double cold(uint32_t threads) {
  Heap heap(IDS, WORDS, SLOTS, threads);
  std::vector<Text> texts = new_texts(KEYS);
  std::vector<Ids> made(threads);
  for (uint32_t i = 0; i < KEYS; i++) made[i % threads].push_back(made_of(heap.agent(i % threads), texts[i]));
  return timed_threads(threads, KEYS, [&](uint32_t t, uint32_t i) { use(id_of(call.intern(heap.agent(t), made[t][i]))); });
}

// Strings that are made before, of keys that the table has.
template <const Calls &call> double hit(uint32_t threads) {
  Heap heap(IDS, WORDS, SLOTS, threads);
  Ids there;
  std::vector<Ids> made(threads);
  for (uint32_t t = 0; t < threads; t++) there = all_interned(heap.agent(t), keys());
  for (uint32_t t = 0; t < threads; t++)
    for (uint32_t i = 0; i < STRINGS / threads; i++) made[t].push_back(made_of(heap.agent(t), keys()[scrambled(i, KEYS, t)]));
  return timed_threads(threads, STRINGS, [&](uint32_t t, uint32_t i) {
    want(id_of(call.intern(heap.agent(t), made[t][i])) == there[scrambled(i, KEYS, t)]);
  });
}

// The same strings a second time.
template <const Calls &call> double hit_again() {
  Heap heap(IDS, WORDS, SLOTS);
  Ids there = all_interned(heap.agent(), keys()), made;
  for (uint32_t i = 0; i < STRINGS; i++) made.push_back(made_of(heap.agent(), keys()[scrambled(i, KEYS)]));
  for (jsstr_id it : made) id_of(call.intern(heap.agent(), it));
  return timed(STRINGS, [&](uint32_t i) { want(id_of(call.intern(heap.agent(), made[i])) == there[scrambled(i, KEYS)]); });
}

template <const Calls &call> double hit_itself() {
  Heap heap(IDS, WORDS, SLOTS);
  Ids there = all_interned(heap.agent(), keys());
  return timed(STRINGS, [&](uint32_t i) {
    jsstr_id it = there[scrambled(i, KEYS)];
    want(id_of(call.intern(heap.agent(), it)) == it);
  });
}

template <const Calls &call> double hit_units(const std::vector<Text> &keys, uint32_t slots, uint32_t threads) {
  uint32_t count = uint32_t(keys.size());
  Heap heap(IDS, WORDS, slots, threads);
  Ids there;
  for (uint32_t t = 0; t < threads; t++) there = all_interned(heap.agent(t), keys);
  return timed_threads(threads, threads * STRINGS, [&](uint32_t t, uint32_t i) {
    uint32_t key = scrambled(i, count, t);
    want(id_of(call.intern_units(heap.agent(t), units_of(keys[key]), keys[key].size())) == there[key]);
  });
}

#ifdef HAS_INTERN_MANY
// As many keys a call, whose units are put one behind another first.
constexpr uint32_t BATCH = 64;
double hit_many() {
  Heap heap(IDS, WORDS, SLOTS);
  Ids there = all_interned(heap.agent(), keys());
  Text all;
  return timed(STRINGS / BATCH, [&](uint32_t i) {
    uint32_t ends[BATCH];
    jsstr_id ids[BATCH];
    all.clear();
    for (uint32_t k = 0; k < BATCH; k++) {
      all += keys()[scrambled(i * BATCH + k, KEYS)];
      ends[k] = uint32_t(all.size());
    }
    want(is_done(jsstr_intern_many(heap.agent(), units_of(all), all.size(), ends, BATCH, ids, BATCH)));
    for (uint32_t k = 0; k < BATCH; k++) want(ids[k] == there[scrambled(i * BATCH + k, KEYS)]);
  }) / BATCH;
}
#endif

// ---- A table that is nearly full, or full: microseconds of the call that takes longest

constexpr uint32_t FULL_SLOTS = 65536, NEARLY = FULL_SLOTS / 20 * 19, TRIED = 64, REFUSED = 8;

template <const Calls &call> double nearly_full() {
  Heap heap(IDS, WORDS, FULL_SLOTS);
  std::vector<Text> texts = new_texts(NEARLY + TRIED);
  for (uint32_t i = 0; i < NEARLY; i++) jsstr_intern_units(heap.agent(), units_of(texts[i]), texts[i].size());
  double most = 0;
  for (uint32_t i = NEARLY; i < NEARLY + TRIED; i++) {
    auto begin = Clock::now();
    use(call.intern_units(heap.agent(), units_of(texts[i]), texts[i].size()));
    most = std::max(most, nanoseconds_since(begin));
  }
  return most / 1000;
}

// A heap, and texts that it refuses. A slot never becomes free, so it does so every time.
struct Full {
  Heap heap{IDS, WORDS, FULL_SLOTS};
  std::vector<Text> refused;

  Full() {
    for (const Text &it : new_texts(2 * FULL_SLOTS)) {
      if (jsstr_intern_units(heap.agent(), units_of(it), it.size()).status == JSSTR_NO_SLOTS) refused.push_back(it);
      if (refused.size() == REFUSED) return;
    }
    want(false);
  }
};

template <const Calls &call> double refused() {
  static Full full;
  double most = 0;
  for (const Text &it : full.refused) {
    double least = 1e18;
    for (int i = 0; i < 3; i++) {
      auto begin = Clock::now();
      want(call.intern_units(full.heap.agent(), units_of(it), it.size()).status == JSSTR_NO_SLOTS);
      least = std::min(least, nanoseconds_since(begin));
    }
    most = std::max(most, least);
  }
  return most / 1000;
}

// ---- Making, joining and cutting, by threads together: strings that claim one by one, and those of blocks

#ifdef HAS_RENEW
struct Blocks { uint32_t ids, words; };
constexpr Blocks NONE = {0, 0}, BLOCKS = {64, 256};

template <class Handle, const Blocks &blocks, class One> double together(uint32_t threads, const std::vector<Text> &texts, One one) {
  return timed_together(threads, [&](Together &it) {
    HeapOf<Handle> heap(threads * (PART + POOL + blocks.ids), threads * (2 * PART + 5 * POOL + blocks.words) / 100 * 102, 1, threads);
    std::vector<Ids> made;
    for (uint32_t t = 0; t < threads; t++) {
      want(jsstr_renew(heap.agent(t), blocks.ids, blocks.words) == JSSTR_DONE);
      made.push_back(all_made(heap.agent(t), texts));
    }
    it.run(PART, [&](uint32_t t, uint32_t i) { use(id_of(one(heap.agent(t), made[t], i))); });
  });
}

template <class Handle, const Blocks &blocks> void add_together(Rows &rows, const char *column) {
  auto add = [&](const char *name, uint32_t threads, const std::vector<Text> &texts, auto one) {
    rows.add(name, threads, column, [threads, &texts, one] { return together<Handle, blocks>(threads, texts, one); });
  };
  for (uint32_t threads : THREADS) {
    add("together: make 5-12", threads, pool(), [](jsstr_agent *agent, const Ids &, uint32_t i) {
      const Text &text = pool()[i % POOL];
      return jsstr_from_units(agent, units_of(text), text.size());
    });
    add("together: join 10-24", threads, pool(), [](jsstr_agent *agent, const Ids &made, uint32_t i) {
      return jsstr_concat_unchecked(agent, made[i % POOL], made[(i + 1) % POOL]);
    });
    add("together: slice 20", threads, forties(), [](jsstr_agent *agent, const Ids &made, uint32_t i) {
      uint32_t from = 1 + i % 19;
      return jsstr_slice_unchecked(agent, made[i % POOL], from, from + 20);
    });
  }
}
#endif

// ---- The rows

template <const Calls &call, Claim claim> void add_making(Rows &rows, const char *column) {
  rows.add("make 5-12", column, make<call, claim>);
  rows.add("join 10-24", column, join<call, claim>);
  rows.add("slice 3", column, [] { return cut<call, claim>(3); });
  rows.add("slice 20", column, [] { return cut<call, claim>(20); });
}

template <const Calls &call> void add_all(Rows &rows) {
  const char *column = call.name;
  add_making<call, each_its_own>(rows, column);
  rows.add("from Latin-1 5-12", column, from_latin1<call>);
  rows.add("make 10^6, a unit", column, make_long<call>);
  rows.add("join 100+100", column, join_100<call>);
  rows.add("append a unit", column, append<call>);
  rows.add("flatten, a unit", column, flatten<call>);
  rows.add("length", column, length<call>);
  rows.add("read 10,000", column, read_long<call>);
  rows.add("equal 9", column, equal_short<call>);
  rows.add("equal 10^6, a unit", column, equal_long<call>);
  rows.add("compare 10^6, a unit", column, compare_long<call>);
  rows.add("index_of 2 in 10^6, a unit", column, search<call>);
  for (uint32_t threads : THREADS) {
    rows.add("read 9", threads, column, [threads] { return read_short<call>(threads); });
    rows.add("intern cold", threads, column, [threads] { return cold<call>(threads); });
    rows.add("hit, new string", threads, column, [threads] { return hit<call>(threads); });
    rows.add("hit by units, 256 keys", threads, column, [threads] { return hit_units<call>(hot_keys(), SLOTS, threads); });
    rows.add("hit by units, 100,000 keys", threads, column, [threads] { return hit_units<call>(keys(), SLOTS, threads); });
  }
  rows.add("hit, interned before", column, hit_again<call>);
  rows.add("hit, itself", column, hit_itself<call>);
  rows.add("hit by units, 200,000 random", column, [] { return hit_units<call>(random_keys(), NUMBERED_SLOTS, 1); });
  rows.add("hit by units, 200,000 numbered", column, [] { return hit_units<call>(numbered_keys(), NUMBERED_SLOTS, 1); });
  rows.add("intern at 95 % load, us", column, nearly_full<call>);
  rows.add("intern refused, us", column, refused<call>);
}

} // namespace

int main() {
  Rows rows;
  add_all<CHECKED>(rows);
  add_all<UNCHECKED>(rows);
#ifdef HAS_RESERVE
  add_making<UNCHECKED, by_blocks>(rows, "reserved");
#endif
#ifdef HAS_RENEW
  add_together<Apart, NONE>(rows, "unchecked");
  add_together<Apart, BLOCKS>(rows, "64/256");
  add_together<Beside, BLOCKS>(rows, "beside");
#endif
#ifdef HAS_INTERN_MANY
  rows.add("hit by units, 100,000 keys", "64 a call", hit_many);
#endif
  return rows.serve();
}
