// What the programs of this folder share: the texts that rows are measured over, clocks for one thread and for more,
// and the rows of a program, which bench/c_heap.py asks for one at a time.
#ifndef ROWS_H
#define ROWS_H
#include <algorithm>
#include <atomic>
#include <chrono>
#include <cstdint>
#include <cstdio>
#include <cstdlib>
#include <functional>
#include <iostream>
#include <string>
#include <thread>
#include <utility>
#include <vector>

using Text = std::u16string;

// How many strings a row makes, cuts, joins or looks for; how many of these differ; and how long the long ones are.
constexpr uint32_t STRINGS = 200000, POOL = 4096, KEYS = 100000, HOT = 256, LONG = 1000000, READ = 10000;
// Numbered keys, and the slots of the table that they are in.
constexpr uint32_t NUMBERED = 200000, NUMBERED_SLOTS = 524288;
constexpr uint32_t THREADS[] = {1, 2, 4};
// The calls of one thread in a round of threads together; a multiple of 64.
constexpr uint32_t PART = 320000;

// What a peer's row makes lives on, as all strings of the heap do; or the last POOL strings do, and earlier ones are
// let go.
constexpr uint32_t KEPT[] = {STRINGS, POOL};
inline std::string kept_name(const char *name, uint32_t kept) { return kept == STRINGS ? name : std::string(name) + ", let go"; }

inline void want(bool it) {
  if (it) return;
  std::fputs("a call was refused, or gave another answer\n", stderr);
  std::_Exit(1);
}

// What a call answered is used.
template <class T> inline void use(const T &it) { asm volatile("" : : "g"(&it) : "memory"); }

// Random numbers, the same in each program.
class Chance {
public:
  explicit Chance(uint64_t seed) : state(seed * 2 + 1) {}
  uint32_t below(uint32_t most) {
    state = state * 6364136223846793005u + 1442695040888963407u;
    return uint32_t(((state >> 32) * most) >> 32);
  }

private:
  uint64_t state;
};

inline Text letters(Chance &chance, size_t length) {
  Text text(length, u'a');
  for (char16_t &it : text) it = char16_t(u'a' + chance.below(26));
  return text;
}

// Texts of letters, each `least` to `most` long.
inline std::vector<Text> texts(uint32_t count, uint32_t least, uint32_t most, uint64_t seed) {
  Chance chance(seed);
  std::vector<Text> all;
  for (uint32_t i = 0; i < count; i++) all.push_back(letters(chance, least + chance.below(most - least + 1)));
  return all;
}

// Texts of nine letters that no row had before.
inline std::vector<Text> new_texts(uint32_t count) {
  static uint64_t seed = 1000;
  return texts(count, 9, 9, seed++);
}

inline const std::vector<Text> &pool() { static const auto all = texts(POOL, 5, 12, 1); return all; }
inline const std::vector<Text> &keys() { static const auto all = texts(KEYS, 9, 9, 2); return all; }
inline const std::vector<Text> &hot_keys() { static const std::vector<Text> all(keys().begin(), keys().begin() + HOT); return all; }
inline const Text &long_text() { static const Text text = texts(1, LONG, LONG, 3)[0]; return text; }

// The same text but for its last unit.
inline Text long_rival() { Text text = long_text(); text.back() = u'{'; return text; }

inline const std::vector<Text> &nines() { static const auto all = texts(POOL, 9, 9, 7); return all; }
inline const std::vector<Text> &forties() { static const auto all = texts(POOL, 40, 40, 5); return all; }
inline const std::vector<Text> &hundreds() { static const auto all = texts(64, 100, 100, 6); return all; }
inline const std::vector<Text> &read_texts() { static const auto all = texts(16, READ, READ, 8); return all; }

// A text at whose end alone are the two units that are sought in it.
inline const Text SOUGHT = u"qz";
inline const Text &searched_text() {
  static const Text text = [] {
    Text made = long_text();
    for (size_t i = 1; i < made.size(); i++) if (made[i - 1] == u'q' && made[i] == u'z') made[i] = u'a';
    return made.replace(made.size() - 2, 2, SOUGHT);
  }();
  return text;
}

inline const std::vector<Text> &numbered_keys() {
  static const std::vector<Text> all = [] {
    std::vector<Text> made;
    for (uint32_t i = 0; i < NUMBERED; i++) {
      std::string name = "row-" + std::to_string(i);
      made.emplace_back(name.begin(), name.end());
    }
    return made;
  }();
  return all;
}

// Random keys, as long as those.
inline const std::vector<Text> &random_keys() {
  static const std::vector<Text> all = [] {
    Chance chance(4);
    std::vector<Text> made;
    for (const Text &it : numbered_keys()) made.push_back(letters(chance, it.size()));
    return made;
  }();
  return all;
}

// Which of `count` keys comes as number i in thread t: each comes, in an order in which no neighbours follow.
inline uint32_t scrambled(uint32_t i, uint32_t count, uint32_t t = 0) { return uint32_t((i * 7919ull + t * 101) % count); }

using Clock = std::chrono::steady_clock;
inline double nanoseconds_since(Clock::time_point begin) { return std::chrono::duration<double, std::nano>(Clock::now() - begin).count(); }

// ns a call of one(i), for each i below count.
template <class One> double timed(uint32_t count, One one) {
  auto begin = Clock::now();
  for (uint32_t i = 0; i < count; i++) one(i);
  return nanoseconds_since(begin) / count;
}

// ns of real time a call of all threads together: thread t calls one(t, i) for each i below count / threads. All
// begin at once.
template <class One> double timed_threads(uint32_t threads, uint32_t count, One one) {
  std::atomic<uint32_t> ready{0};
  std::atomic<bool> go{false};
  uint32_t part = count / threads;
  auto work = [&one, part](uint32_t t) { for (uint32_t i = 0; i < part; i++) one(t, i); };
  std::vector<std::thread> running;
  for (uint32_t t = 1; t < threads; t++)
    running.emplace_back([&ready, &go, &work, t] { ready++; while (!go) {} work(t); });
  while (ready + 1 < threads) {}
  auto begin = Clock::now();
  go = true;
  work(0);
  for (std::thread &it : running) it.join();
  return nanoseconds_since(begin) / (part * threads);
}

// Calls of several threads, counted only over the time in which all of them ran: each notes the time after every NOTED
// calls, and while two notes are GAP or more apart it was on no processor. So other work on the machine counts little.
class Together {
public:
  explicit Together(uint32_t threads) : notes(threads) {}

  size_t threads() const { return notes.size(); }
  bool is_long() const { return time >= LEAST; }
  double each() const { return time / calls; }

  // Thread t calls one(t, i) for each i below count. All begin at once.
  template <class One> void run(uint32_t count, One one) {
    std::atomic<size_t> ready{0};
    auto work = [&](uint32_t t) {
      std::vector<double> &mine = notes[t];
      mine.assign(count / NOTED + 1, 0);
      for (ready++; ready < threads();) {}
      for (uint32_t i = 0; i < count; i++) {
        if (i % NOTED == 0) mine[i / NOTED] = now();
        one(t, i);
      }
      mine[count / NOTED] = now();
    };
    std::vector<std::thread> running;
    for (uint32_t t = 1; t < threads(); t++) running.emplace_back(work, t);
    work(0);
    for (std::thread &it : running) it.join();
    count_windows();
  }

private:
  // In ns: what is counted of a row at least, the gap that a thread off its processor leaves, and the least window.
  static constexpr double LEAST = 200e6, GAP = 200e3, WINDOW = 50e3;
  static constexpr uint32_t NOTED = 64;
  struct Span { double from, to; };

  static double now() { return std::chrono::duration<double, std::nano>(Clock::now().time_since_epoch()).count(); }

  // When some thread didn't run, by their beginnings.
  std::vector<Span> pauses() const {
    std::vector<Span> all;
    for (const std::vector<double> &it : notes) {
      all.push_back({0, it.front()});
      for (size_t k = 1; k < it.size(); k++) if (it[k] - it[k - 1] >= GAP) all.push_back({it[k - 1], it[k]});
      all.push_back({it.back(), 1e300});
    }
    std::sort(all.begin(), all.end(), [](const Span &a, const Span &b) { return a.from < b.from; });
    return all;
  }

  // The windows between the pauses, with the calls that ended in them.
  void count_windows() {
    double end = 0;
    for (const Span &pause : pauses()) {
      if (pause.from - end >= WINDOW) {
        time += pause.from - end;
        for (const std::vector<double> &it : notes)
          for (size_t k = 1; k < it.size(); k++) if (it[k] > end && it[k] <= pause.from) calls += NOTED;
      }
      end = std::max(end, pause.to);
    }
  }

  std::vector<std::vector<double>> notes;
  double time = 0, calls = 0;
};

// ns a call of several threads together, over as many rounds as that takes; no number where a machine hardly ever runs
// them all at once.
template <class Round> double timed_together(uint32_t threads, Round round) {
  Together together(threads);
  for (int rounds = 0; rounds < 100 && !together.is_long(); rounds++) round(together);
  return together.each();
}

// The rows of a program. Each has a name, a column, and what measures it once.
class Rows {
public:
  void add(std::string name, std::string column, std::function<double()> measure) {
    all.push_back({std::move(name), std::move(column), std::move(measure)});
  }

  // The row of a number of threads; one thread's has the bare name.
  void add(const std::string &name, uint32_t threads, const std::string &column, std::function<double()> measure) {
    add(threads == 1 ? name : name + ", " + std::to_string(threads) + " threads", column, std::move(measure));
  }

  // Prints the rows and an empty line; then, for each number of a row that it reads, the time.
  int serve() const {
    for (const Row &it : all) std::printf("%s\t%s\n", it.name.c_str(), it.column.c_str());
    std::puts("");
    std::fflush(stdout);
    for (size_t row; std::cin >> row && row < all.size();) {
      std::printf("%.6g\n", all[row].measure());
      std::fflush(stdout);
    }
    return 0;
  }

private:
  struct Row {
    std::string name, column;
    std::function<double()> measure;
  };
  std::vector<Row> all;
};
#endif
