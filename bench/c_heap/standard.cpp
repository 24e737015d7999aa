// The same rows of std::u16string, and of tables of them: a std::unordered_map without a lock, one behind a mutex, 64
// of them, each behind a mutex, and with HAS_TBB oneTBB's set. A table is asked by a view, so no text is made where it
// has one.
#include "rows.h"
#include <mutex>
#include <string_view>
#include <unordered_map>
#ifdef HAS_TBB
#include <tbb/concurrent_unordered_set.h>
#endif

namespace {

using View = std::u16string_view;

// Hashes a text and a view alike.
struct Hash {
  using is_transparent = void;
  using transparent_key_equal = std::equal_to<>;
  size_t operator()(View text) const { return std::hash<View>()(text); }
};

// ---- Tables: each answers the number of a text, or where it is kept, and keeps a new one

class Plain {
public:
  uint32_t number_of(View text) {
    auto at = numbers.find(text);
    return at != numbers.end() ? at->second : numbers.emplace(text, uint32_t(numbers.size())).first->second;
  }

private:
  std::unordered_map<Text, uint32_t, Hash, std::equal_to<>> numbers;
};

class alignas(64) Locked {
public:
  uint32_t number_of(View text) {
    std::lock_guard<std::mutex> guard(lock);
    return plain.number_of(text);
  }

private:
  std::mutex lock;
  Plain plain;
};

class Shards {
public:
  uint32_t number_of(View text) { return all[(Hash()(text) >> 32) % COUNT].number_of(text); }

private:
  static constexpr size_t COUNT = 64;
  Locked all[COUNT];
};

#ifdef HAS_TBB
class Tbb {
public:
  const Text *number_of(View text) {
    auto at = all.find(text);
    return &*(at != all.end() ? at : all.emplace(text).first);
  }

private:
  tbb::concurrent_unordered_set<Text, Hash, std::equal_to<>> all;
};
#endif

template <class Table> double cold(uint32_t threads) {
  Table table;
  std::vector<Text> made = new_texts(KEYS);
  uint32_t part = KEYS / threads;
  return timed_threads(threads, KEYS, [&](uint32_t t, uint32_t i) { use(table.number_of(made[t * part + i])); });
}

// Copies of the keys that the table has.
template <class Table> double hit(uint32_t threads) {
  Table table;
  std::vector<std::vector<Text>> made(threads);
  for (const Text &it : keys()) table.number_of(it);
  for (uint32_t t = 0; t < threads; t++)
    for (uint32_t i = 0; i < STRINGS / threads; i++) made[t].push_back(keys()[scrambled(i, KEYS, t)]);
  return timed_threads(threads, STRINGS, [&](uint32_t t, uint32_t i) { use(table.number_of(made[t][i])); });
}

template <class Table> double hit_units(const std::vector<Text> &keys, uint32_t threads) {
  Table table;
  for (const Text &it : keys) table.number_of(it);
  return timed_threads(threads, threads * STRINGS, [&](uint32_t t, uint32_t i) {
    use(table.number_of(keys[scrambled(i, uint32_t(keys.size()), t)]));
  });
}

template <class Table> void add_table(Rows &rows, const char *column, uint32_t most_threads = 4) {
  for (uint32_t threads : THREADS) {
    if (threads > most_threads) break;
    rows.add("intern cold", threads, column, [threads] { return cold<Table>(threads); });
    rows.add("hit, new string", threads, column, [threads] { return hit<Table>(threads); });
    rows.add("hit by units, 256 keys", threads, column, [threads] { return hit_units<Table>(hot_keys(), threads); });
    rows.add("hit by units, 100,000 keys", threads, column, [threads] { return hit_units<Table>(keys(), threads); });
  }
}

// ---- Texts

template <class One> double made_by(uint32_t kept, One one) {
  std::vector<Text> made(kept);
  return timed(STRINGS, [&](uint32_t i) { made[i % kept] = one(i); });
}

// The same of threads together. What is made lives until the round ends.
template <class One> double made_together(uint32_t threads, One one) {
  return timed_together(threads, [&](Together &it) {
    std::vector<std::vector<Text>> made(threads, std::vector<Text>(PART));
    it.run(PART, [&](uint32_t t, uint32_t i) { made[t][i] = one(i); });
  });
}

double read_short(uint32_t threads) {
  std::vector<std::vector<Text>> own(threads, nines());
  return timed_threads(threads, threads * STRINGS, [&](uint32_t t, uint32_t i) {
    char16_t units[9];
    own[t][i % POOL].copy(units, 9);
    use(units);
  });
}

Text cut(uint32_t i, uint32_t length) { return forties()[i % POOL].substr(1 + i % (39 - length), length); }

double from_latin1(uint32_t kept) {
  std::vector<std::string> bytes;
  for (const Text &it : pool()) bytes.emplace_back(it.begin(), it.end());
  return made_by(kept, [&](uint32_t i) { return Text(bytes[i % POOL].begin(), bytes[i % POOL].end()); });
}

double make_long() {
  std::vector<Text> made(10);
  return timed(10, [&](uint32_t i) { made[i].assign(long_text().data(), LONG); }) / LONG;
}

double append() {
  Text text(20, u'a');
  return timed(KEYS, [&](uint32_t) { text += u"x"; use(text); });
}

double length() {
  return timed(STRINGS, [&](uint32_t i) { want(keys()[i % KEYS].size() == 9); });
}

double read_long() {
  static char16_t units[READ];
  return timed(4000, [&](uint32_t i) {
    read_texts()[i % 16].copy(units, READ);
    use(units);
  });
}

double equal_short() {
  std::vector<Text> again = keys();
  return timed(STRINGS, [&](uint32_t i) { want(keys()[i % KEYS] == again[i % KEYS]); });
}

double equal_long() {
  Text again = long_text();
  return timed(20, [&](uint32_t) { want(again == long_text()); }) / LONG;
}

double compare_long() {
  Text rival = long_rival();
  return timed(20, [&](uint32_t) { want(long_text().compare(rival) < 0); }) / LONG;
}

double search() {
  return timed(20, [&](uint32_t) { want(searched_text().find(SOUGHT) == LONG - 2); }) / LONG;
}

void add_texts(Rows &rows, const char *column) {
  auto made = [](uint32_t i) { return pool()[i % POOL]; };
  auto joined = [](uint32_t i) { return pool()[i % POOL] + pool()[(i + 1) % POOL]; };
  auto cut_20 = [](uint32_t i) { return cut(i, 20); };
  for (uint32_t kept : KEPT) {
    auto add = [&](const char *name, Text (*one)(uint32_t)) {
      rows.add(kept_name(name, kept), column, [kept, one] { return made_by(kept, one); });
    };
    add("make 5-12", made);
    add("join 10-24", joined);
    add("join 100+100", [](uint32_t i) { return hundreds()[i % 64] + hundreds()[(i + 1) % 64]; });
    add("slice 3", [](uint32_t i) { return cut(i, 3); });
    add("slice 20", cut_20);
  }
  for (uint32_t threads : THREADS) {
    rows.add("together: make 5-12", threads, column, [=] { return made_together(threads, made); });
    rows.add("together: join 10-24", threads, column, [=] { return made_together(threads, joined); });
    rows.add("together: slice 20", threads, column, [=] { return made_together(threads, cut_20); });
    rows.add("read 9", threads, column, [threads] { return read_short(threads); });
  }
  for (uint32_t kept : KEPT) rows.add(kept_name("from Latin-1 5-12", kept), column, [kept] { return from_latin1(kept); });
  rows.add("make 10^6, a unit", column, make_long);
  rows.add("append a unit", column, append);
  rows.add("length", column, length);
  rows.add("read 10,000", column, read_long);
  rows.add("equal 9", column, equal_short);
  rows.add("equal 10^6, a unit", column, equal_long);
  rows.add("compare 10^6, a unit", column, compare_long);
  rows.add("index_of 2 in 10^6, a unit", column, search);
}

} // namespace

int main() {
  Rows rows;
  add_texts(rows, "C++");
  add_table<Plain>(rows, "C++", 1);
  rows.add("hit by units, 200,000 random", "C++", [] { return hit_units<Plain>(random_keys(), 1); });
  rows.add("hit by units, 200,000 numbered", "C++", [] { return hit_units<Plain>(numbered_keys(), 1); });
  add_table<Locked>(rows, "mutex");
  add_table<Shards>(rows, "64 shards");
#ifdef HAS_TBB
  add_table<Tbb>(rows, "TBB");
#endif
  return rows.serve();
}
