// Interning from C, straight from units and by a string that is made first, in one program: keys of nine units, with
// one thread and with four. Those stand beside 64 shards of std::unordered_map<std::u16string, uint32_t>, each behind
// a mutex, which get each key as a string that is there already. Prints medians of five rounds, in ns of real time a
// key of all threads together, and their ratios to a string made and interned, or to the shards.
//
//     c++ -O2 -std=c++17 -pthread -I PREFIX/include bench/c_intern.cpp PREFIX/lib/libjsstr.a -o c_intern && ./c_intern [COUNT]
#include "jsstr_unchecked.h"
#include <algorithm>
#include <array>
#include <atomic>
#include <chrono>
#include <cstdio>
#include <cstdlib>
#include <functional>
#include <mutex>
#include <string>
#include <thread>
#include <unordered_map>
#include <vector>

constexpr uint32_t HOT = 256, MANY = 100000, SLOTS = 262139, SHARDS = 64, ROUNDS = 5;
static uint32_t total = 1000000;

using Key = std::array<uint16_t, 9>;

static Key key_of(uint32_t number) {
  char text[16];
  std::snprintf(text, sizeof text, "key%06u", number);
  Key key;
  std::copy(text, text + key.size(), key.begin());
  return key;
}

static void want(bool it) { if (!it) { std::puts("a call was refused, or gave another number"); std::exit(1); } }

// The handle that a thread writes, on cache lines of its own.
struct alignas(128) Handle { jsstr_agent agent{}; };

// A heap with room for `total` strings that are made of keys, and for each key twice; and an agent for each thread.
struct Heap {
  std::vector<Handle> handles;
  explicit Heap(uint32_t threads) : handles(threads) {
    uint32_t most = total + 2 * MANY;
    want(jsstr_make({most, 2 * most, SLOTS}, threads, 1000, agent(0)) == JSSTR_DONE);
    for (uint32_t t = 1; t < threads; t++) want(jsstr_split(agent(0), 1, agent(t)) == JSSTR_DONE);
  }
  Heap(const Heap &) = delete;
  ~Heap() { for (Handle &it : handles) jsstr_free(&it.agent); }
  jsstr_agent *agent(uint32_t t) { return &handles[t].agent; }
};

struct Calls {
  const char *name;
  jsstr_answer (*from)(jsstr_agent *, const uint16_t *, size_t);
  jsstr_answer (*intern)(jsstr_agent *, jsstr_id);
  jsstr_answer (*intern_units)(jsstr_agent *, const uint16_t *, size_t);
  jsstr_answer (*find_units)(jsstr_agent *, const uint16_t *, size_t);
};
static const Calls CHECKED = {"checked", jsstr_from_units, jsstr_intern, jsstr_intern_units, jsstr_find_units};
static const Calls UNCHECKED = {"unchecked", jsstr_from_units, jsstr_intern_unchecked, jsstr_intern_units, jsstr_find_units};

// ns a call of one(t, i) for each i below count: i is thread i % threads's. All begin at once.
template <typename One> static double timed(uint32_t threads, uint32_t count, One one) {
  std::atomic<uint32_t> ready{0};
  std::atomic<bool> go{false};
  std::vector<std::thread> running;
  auto work = [&](uint32_t t) { for (uint32_t i = t; i < count; i += threads) one(t, i); };
  for (uint32_t t = 1; t < threads; t++)
    running.emplace_back([&, t] { ready++; while (!go) {} work(t); });
  while (ready + 1 < threads) {}
  auto begin = std::chrono::steady_clock::now();
  go = true;
  work(0);
  for (auto &it : running) it.join();
  return std::chrono::duration<double, std::nano>(std::chrono::steady_clock::now() - begin).count() / count;
}

// The ways that a key becomes a number: each interns or finds keys[number] as an agent.
enum Way { MAKE, UNITS, FIND, AGAIN, MAP, WAYS };
static const char *const WAY[] = {"make+intern", "intern_units", "find_units", "intern again", "shards"};

struct Keys {
  std::vector<Key> keys;
  std::vector<jsstr_id> ids; // what each is interned as, once it is
};

template <Way way> static jsstr_answer number_of(const Calls &call, jsstr_agent *agent, const Keys &from, uint32_t number) {
  const Key &key = from.keys[number];
  if (way == UNITS) return call.intern_units(agent, key.data(), key.size());
  if (way == FIND) return call.find_units(agent, key.data(), key.size());
  if (way == AGAIN) return call.intern(agent, from.ids[number]);
  jsstr_answer made = call.from(agent, key.data(), key.size());
  want(made.status == JSSTR_DONE);
  return call.intern(agent, made.id);
}

// Keys that are in the table, in another order for each thread.
template <Way way> static double hits(const Calls &call, uint32_t threads, Keys &keys) {
  Heap heap(threads);
  uint32_t count = uint32_t(keys.keys.size());
  for (uint32_t t = 0; t < threads; t++)
    for (uint32_t i = 0; i < count; i++) keys.ids[i] = number_of<UNITS>(call, heap.agent(t), keys, i).id;
  return timed(threads, total, [&](uint32_t t, uint32_t i) {
    uint32_t number = uint32_t((i / threads * 7919ull + t * 101) % count);
    jsstr_answer s = number_of<way>(call, heap.agent(t), keys, number);
    want(s.status == JSSTR_DONE && s.id == keys.ids[number]);
  });
}

// Keys that aren't, each once.
template <Way way> static double misses(const Calls &call, Keys &keys) {
  Heap heap(1);
  return timed(1, uint32_t(keys.keys.size()), [&](uint32_t, uint32_t i) {
    want(number_of<way>(call, heap.agent(0), keys, i).status == JSSTR_DONE);
  });
}

struct alignas(128) Shard {
  std::mutex lock;
  std::unordered_map<std::u16string, uint32_t> numbers;
};

static double shards(uint32_t threads, const Keys &keys) {
  std::vector<Shard> all(SHARDS);
  std::vector<std::u16string> texts;
  for (const Key &it : keys.keys) texts.emplace_back(it.begin(), it.end());
  auto number_in = [&](uint32_t i) {
    Shard &at = all[std::hash<std::u16string>()(texts[i]) % SHARDS];
    std::lock_guard<std::mutex> guard(at.lock);
    return at.numbers.try_emplace(texts[i], i).first->second;
  };
  uint32_t count = uint32_t(texts.size());
  for (uint32_t i = 0; i < count; i++) number_in(i);
  return timed(threads, total, [&](uint32_t t, uint32_t i) {
    uint32_t number = uint32_t((i / threads * 7919ull + t * 101) % count);
    want(number_in(number) == number);
  });
}

// A line of the table: its ways are measured in turn, a round after the other.
struct Line {
  std::string name;
  std::vector<std::pair<Way, std::function<double()>>> ways;
  Way beside; // what the ratios are to
  double most; // the aim for the ratio of intern_units

  void print() const {
    std::array<std::vector<double>, WAYS> times;
    for (uint32_t round = 0; round < ROUNDS; round++)
      for (auto &it : ways) times[it.first].push_back(it.second());
    std::array<double, WAYS> medians{};
    for (uint32_t way = 0; way < WAYS; way++) {
      auto &it = times[way];
      if (it.empty()) continue;
      std::sort(it.begin(), it.end());
      medians[way] = it[ROUNDS / 2];
    }
    std::printf("%-34s", name.c_str());
    for (double it : medians)
      if (it > 0) std::printf(" %7.1f (%4.2f)", it, it / medians[beside]);
      else std::printf(" %14s", "-");
    std::printf("  %4.2f of %s, at most %.2f\n", medians[UNITS] / medians[beside], WAY[beside], most);
    std::fflush(stdout);
  }
};

static std::vector<Line> lines_of(const Calls &call, Keys &hot, Keys &many) {
  auto in = [&call](const char *what) { return std::string(what) + ", " + call.name; };
  auto of = [&call](uint32_t threads, Keys &keys) {
    return std::vector<std::pair<Way, std::function<double()>>>{
      {MAKE, [&call, threads, &keys] { return hits<MAKE>(call, threads, keys); }},
      {UNITS, [&call, threads, &keys] { return hits<UNITS>(call, threads, keys); }},
      {FIND, [&call, threads, &keys] { return hits<FIND>(call, threads, keys); }},
      {AGAIN, [&call, threads, &keys] { return hits<AGAIN>(call, threads, keys); }}};
  };
  std::vector<Line> lines = {{in("hit among 256"), of(1, hot), MAKE, 0.5}};
  lines.push_back({in("hit among 100,000"), of(1, many), MAKE, 0.85});
  lines.push_back({in("miss"), {{MAKE, [&] { return misses<MAKE>(call, many); }}}, MAKE, 0.9});
  lines.back().ways.push_back({UNITS, [&] { return misses<UNITS>(call, many); }});
  lines.push_back({in("hit among 256, 4 threads"), of(4, hot), MAP, 1});
  lines.back().ways.push_back({MAP, [&hot] { return shards(4, hot); }});
  return lines;
}

static Keys keys_of(uint32_t count) {
  Keys all;
  for (uint32_t i = 0; i < count; i++) all.keys.push_back(key_of(i));
  all.ids.resize(count, JSSTR_NO_STRING);
  return all;
}

int main(int count, char **told) {
  if (count > 1) total = uint32_t(std::atoi(told[1]));
  Keys hot = keys_of(HOT), many = keys_of(MANY);
  std::printf("ns a key (ratio)%18s", "");
  for (const char *it : WAY) std::printf(" %14s", it);
  std::puts("  aim for intern_units");
  for (const Calls *call : {&CHECKED, &UNCHECKED})
    for (const Line &it : lines_of(*call, hot, many)) it.print();
}
