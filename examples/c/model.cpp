// Makes calls by chance, valid ones and others, checked and unchecked, on tiny heaps of 1 to 5 agents with a second heap beside them, and compares each
// answer with that of a model of the library (model.hpp): every field, number, id and written buffer; after each call how full the heap is,
// what is reserved, and how much each agent knows. Now and then malloc answers null.
//
//     model [COUNT [SEED]]
//
// makes COUNT calls, 200,000 by default, and prints how often each status was answered, or the first call that differs. WHICH REFUSAL WINS is in the
// model, and so asserted: BAD_ARGUMENT; BAD_SIZE; NOT_UTF8; NO_WORDS of settling, of the first string before the second; UNMAPPED, NO_ROOM
// and NONE; TOO_LONG, also where a side is empty; NO_SLOTS; NO_WORDS; NO_IDS. A copy between heaps settles before it asks for memory.
//
// It has a malloc, realloc and free of its own in front of the C library's, so it is linked with -Wl,--wrap=malloc,--wrap=realloc,--wrap=free.
#include "model.hpp"
#include <cinttypes>
#include <climits>
#include <cstdio>
#include <cstdlib>
#include <memory>

using namespace model;

namespace {

// Agents 0 to 4 are of the first heap, agent 5 of the second.
constexpr int AGENTS = 6, FAR = 5;

// Whether a call allocates nothing, may do so beside its answer, or may answer NO_MEMORY.
enum Memory { NOTHING, QUIET, MAY };

struct World {
  std::unique_ptr<Heap> heaps[2];
  Agent agents[AGENTS];
  Text built;

  // A copy, whose agents have its own heaps.
  World copy() const {
    World now;
    for (int i = 0; i < 2; i++)
      if (heaps[i]) now.heaps[i] = std::make_unique<Heap>(*heaps[i]);
    for (int i = 0; i < AGENTS; i++) {
      now.agents[i] = agents[i];
      if (agents[i].heap) now.agents[i].heap = now.heaps[i == FAR].get();
    }
    now.built = built;
    return now;
  }
};

World world;
jsstr_agent handles[AGENTS];
jsstr_builder text;
uint64_t state, numbers, calls, seen[12], seed;
const char *playing = "";
long left = LONG_MAX, asked;
bool is_inside, is_refused_memory;

uint32_t chance(uint32_t below) {
  state = state * 6364136223846793005u + 1442695040888963407u;
  return uint32_t((state >> 33) % below);
}

bool one_in(uint32_t n) { return chance(n) == 0; }

[[noreturn]] void differs(const char *what, const Answer *got = nullptr, const Answer *want = nullptr) {
  std::printf("call %" PRIu64 " of seed %" PRIu64 ", %s%s: %s\n", calls, seed, playing, is_refused_memory ? " with malloc refused" : "", what);
  for (const Answer *it : {got, want})
    if (it) {
      std::printf("  %s %s", it == got ? "answered" : "the model", jsstr_status_name(it->status()));
      for (int i = 1; i < 7; i++) std::printf(" %" PRIu32, it->numbers[i]);
      std::printf("\n");
    }
  std::exit(1);
}

#define CHECK(c) do { if (!(c)) differs(#c); } while (0)

// Answers of all kinds.
Answer answer(uint32_t status) { return {status}; }
// (a refusal has no string, and a call that makes none has none to answer, for which the model has 0)
Answer answer(jsstr_answer s) {
  CHECK(s.status == JSSTR_DONE || s.id == JSSTR_NO_STRING);
  return {s.status, s.id == JSSTR_NO_STRING ? 0 : s.id, s.at, s.want, s.end};
}
Answer answer(jsstr_batch b) { return {b.status, b.done, b.at, b.want, b.end}; }
Answer answer(jsstr_number n) { return {n.status, n.value}; }
Answer answer(jsstr_truth t) { return {t.status, t.holds}; }
Answer answer(jsstr_order o) { return {o.status, uint32_t(o.order)}; }
Answer answer(jsstr_place p) { return {p.status, p.at}; }
Answer answer(jsstr_bytes b) { return {b.status, b.at, b.size}; }
Answer answer(jsstr_words w) { return {w.status, w.wide, w.lane, w.length, w.count}; }
Answer answer(jsstr_counts u) { return {u.status, u.ids, u.words}; }
Answer answer(jsstr_room r) { return {r.status, r.ids, r.words, r.all_ids, r.all_words, r.slots, r.seen_slots}; }
const Answer REFUSED = {JSSTR_BAD_ARGUMENT};

// A call in one of its forms: what the unchecked one gives that has no status is made an answer by `made`.
#define EITHER(is_unchecked, call, made, ...) ((is_unchecked) ? made(jsstr_##call##_unchecked(__VA_ARGS__)) : answer(jsstr_##call(__VA_ARGS__)))

Agent &agent(int i) { return world.agents[i]; }

// How full an agent's heap is, what it has reserved, and its share, of the model.
Answer room_of(const Agent &a) {
  return a.heap ? Answer{JSSTR_DONE, a.heap->ids, a.heap->words, a.heap->size.ids, a.heap->size.words, a.heap->size.slots, a.seen_slots()} : REFUSED;
}
Answer reserved_by(const Agent &a) { return a.heap ? Answer{JSSTR_DONE, uint32_t(a.ids.size()), a.words} : REFUSED; }
Answer share_of(const Agent &a) { return a.heap ? value(a.share) : REFUSED; }

// What an agent sees of its heap and of itself is what the model has.
bool is_seen(int i) {
  const Agent &a = agent(i);
  return answer(jsstr_room_of(&handles[i])) == room_of(a) && answer(jsstr_reserved(&handles[i])) == reserved_by(a) && answer(jsstr_share(&handles[i])) == share_of(a)
    && !handles[i].at == !a.heap && !handles[i].live == !a.heap;
}

bool all_are_seen(std::initializer_list<int> who) { return std::all_of(who.begin(), who.end(), is_seen) && text.len == world.built.size(); }

// Ends where an agent sees something else than the model has.
void check_seen(std::initializer_list<int> who) {
  for (int i : who) {
    Answer room = answer(jsstr_room_of(&handles[i])), reserved = answer(jsstr_reserved(&handles[i])), right[] = {room_of(agent(i)), reserved_by(agent(i))};
    if (!(room == right[0])) differs("another jsstr_room_of follows", &room, &right[0]);
    if (!(reserved == right[1])) differs("another jsstr_reserved follows", &reserved, &right[1]);
  }
  if (!all_are_seen(who)) differs("another share, handle or text follows");
}

// The answer of the library, with malloc refused after some allocations or not.
template <class Call> Answer answered(Call call, bool is_denied) {
  left = is_denied ? chance(3) : LONG_MAX;
  asked = 0;
  is_inside = true;
  Answer got = call();
  is_inside = false;
  is_refused_memory = left == 0 && is_denied;
  left = LONG_MAX;
  calls++;
  seen[got.status() < 12 ? got.status() : 0]++;
  return got;
}

// What the refusal of memory leaves: nothing but a rope that was settled, or what jsstr_reserve says.
template <class Left> void refused(const World &before, std::initializer_list<int> who, Left leaves) {
  world = before.copy();
  if (all_are_seen(who)) return;
  leaves();
  check_seen(who);
}

// Plays a call in the library and in the model, for some agents.
template <class Call, class Model, class Left> void play(const char *name, Memory memory, std::initializer_list<int> who, Call call, Model wanted, Left leaves) {
  playing = name;
  bool is_denied = memory != NOTHING && one_in(12);
  World before = is_denied ? world.copy() : World();
  Answer got = answered(call, is_denied);
  if (memory == NOTHING && asked) differs("it allocates");
  if (got.status() == JSSTR_NO_MEMORY) {
    if (memory != MAY || !is_denied || !asked) differs("NO_MEMORY");
    return refused(before, who, leaves);
  }
  Answer want = wanted();
  for (uint32_t granted = 0; is_denied && asked && granted < 4 && !(got == want && all_are_seen(who)); granted++) {
    // (without memory for their list no more ids were renewed)
    world = before.copy();
    renewals = granted;
    want = wanted();
    renewals = UINT32_MAX;
  }
  if (!(got == want)) differs("another answer", &got, &want);
  check_seen(who);
}

template <class Call, class Model> void play(const char *name, Memory memory, std::initializer_list<int> who, Call call, Model wanted) {
  play(name, memory, who, call, wanted, [] {});
}

// A call that makes a string may renew what is reserved, which allocates.
Memory making(int i) { return agent(i).blocks.ids ? QUIET : NOTHING; }

// ---- What calls are given

int some_agent() {
  int i = int(chance(AGENTS));
  for (int turn = 0; turn < 4 && !agent(i).heap && !one_in(30); turn++) i = int(chance(AGENTS));
  return i;
}

// A string that the agent knows, mostly.
jsstr_id some_id(int i) {
  const Agent &a = agent(i);
  if (!a.heap || one_in(40)) return chance(2) ? chance(12) : one_in(3) ? JSSTR_NO_STRING : chance(1u << 31);
  for (int turn = 0; turn < 40 && a.heap->ids; turn++) {
    jsstr_id s = chance(a.heap->ids);
    if (a.known[s]) return s;
  }
  return chance(a.heap->size.ids + 2);
}

jsstr_id some_key(int i) {
  const Agent &a = agent(i);
  for (int turn = 0; a.heap && turn < 9; turn++) {
    jsstr_id s = a.heap->slots[chance(a.heap->size.slots)];
    if (s != JSSTR_NO_STRING && !one_in(12)) return s;
  }
  return some_id(i);
}

const Text &units_of(int i, jsstr_id s) { return agent(i).heap->strings[s].units; }
size_t length_of(int i, jsstr_id s) { return agent(i).knows(s) ? units_of(i, s).size() : chance(9); }
bool is_settled(int i, jsstr_id s) { return agent(i).knows(s) && agent(i).heap->strings[s].form != CONS; }

char16_t some_unit(uint32_t kind) {
  if (kind == 0 || chance(3)) return char16_t('a' + chance(3));
  if (kind == 1) return char16_t(0x80 + chance(0x80));
  return kind == 2 ? char16_t(0x4E00 + chance(3)) : char16_t(0xD800 + chance(0x800));
}

// Units, often those of a string that is there, or digits.
Text some_units() {
  const Heap &heap = *world.heaps[0];
  if (heap.ids && one_in(3)) {
    Text units = heap.strings[chance(heap.ids)].units;
    if (one_in(4) && !units.empty()) units[chance(uint32_t(units.size()))] = some_unit(chance(4));
    return one_in(4) ? units.substr(chance(uint32_t(units.size()) + 1)) : units;
  }
  if (one_in(12)) {
    std::string digits = std::to_string(one_in(2) ? UINT32_MAX - 3 + uint64_t(chance(6)) : chance(1u << 31) >> chance(31));
    return (one_in(6) ? u"0" : u"") + Text(digits.begin(), digits.end());
  }
  uint32_t most[] = {5, 20, 3, 70}, shape = chance(4), kind = chance(6), length = shape == 2 ? 11 + chance(4) : chance(most[shape]);
  Text units;
  while (length--) units += some_unit(kind);
  return units;
}

enum Kind { UNITS, LATIN1, UTF8, WTF8 };

// What a call that takes units or bytes is given, and the units that it is to see; `len` is now and then too much, and
// `encoding` none.
struct Given {
  Kind kind = Kind(chance(4));
  Text units = some_units();
  Bytes bytes;
  size_t fault = SIZE_MAX, len;
  uint32_t encoding = kind == LATIN1 ? JSSTR_LATIN1 : kind == UTF8 ? JSSTR_UTF8 : JSSTR_WTF8;

  Given() {
    if (kind == LATIN1)
      for (char16_t &it : units) bytes += uint8_t(it = char16_t(it & 0xFF));
    if (kind >= UTF8) spell();
    len = kind == UNITS ? units.size() : bytes.size();
    if (one_in(200)) len = size_t(JSSTR_MAX_LENGTH) + 1 + chance(3);
    if (one_in(200)) encoding = JSSTR_WTF8 + 1 + chance(9);
  }

  void spell() {
    bytes = Utf8(units, !one_in(8) && kind == UTF8).bytes;
    if (one_in(8) && !bytes.empty()) bytes[chance(uint32_t(bytes.size()))] = uint8_t(chance(256));
    if (one_in(12) && !bytes.empty()) bytes.pop_back();
    Spelled read(bytes, kind == WTF8);
    units = read.units;
    if (read.fault < bytes.size()) fault = read.fault;
  }

  bool is_too_long() const { return len > JSSTR_MAX_LENGTH; }
  bool is_encoded() const { return kind == UNITS || encoding <= JSSTR_WTF8; }
  const uint16_t *list() const { return reinterpret_cast<const uint16_t *>(units.data()); }
  Answer not_utf8() const { return {JSSTR_NOT_UTF8, 0, uint32_t(fault)}; }
};

// The calls that take units or bytes and answer a string, by kind.
typedef jsstr_answer OfUnits(jsstr_agent *, const uint16_t *, size_t);
typedef jsstr_answer OfBytes(jsstr_agent *, uint32_t, const uint8_t *, size_t);
struct Family {
  OfUnits *units;
  OfBytes *bytes;

  Answer operator()(jsstr_agent *a, const Given &g) const {
    return answer(g.kind == UNITS ? units(a, g.list(), g.len) : bytes(a, g.encoding, g.bytes.data(), g.len));
  }
};
#define FAMILY(call) {jsstr_##call##_units, jsstr_##call##_bytes}
const Family FROM = FAMILY(from), INTERN = FAMILY(intern), FIND = FAMILY(find);

// ---- The calls

void from() {
  int i = some_agent();
  Given g;
  bool ok = agent(i).heap && !g.is_too_long() && g.is_encoded();
  play("from", making(i), {i}, [&] { return FROM(&handles[i], g); }, [&] { return !ok ? REFUSED : g.fault != SIZE_MAX ? g.not_utf8() : agent(i).make(g.units); });
}

void key() {
  int i = some_agent();
  Given g;
  bool ok = agent(i).heap && !g.is_too_long() && g.is_encoded(), finds = one_in(3);
  play(finds ? "find" : "intern_units", QUIET, {i}, [&] { return (finds ? FIND : INTERN)(&handles[i], g); }, [&] {
    return !ok ? REFUSED : g.fault != SIZE_MAX ? g.not_utf8() : finds ? agent(i).find(g.units) : agent(i).intern_units(g.units);
  });
}

void concat() {
  int i = some_agent();
  jsstr_id a = some_id(i), b = some_id(i);
  bool ok = agent(i).knows(a) && agent(i).knows(b), u = ok && one_in(3);
  play("concat", making(i), {i}, [&] { return EITHER(u, concat, answer, &handles[i], a, b); }, [&] { return ok ? agent(i).concat(a, b) : REFUSED; });
}

void slice() {
  int i = some_agent();
  jsstr_id s = some_id(i);
  uint32_t length = uint32_t(length_of(i, s)), from = one_in(3) ? 0 : chance(length + 1), to = from + chance(length - from + 1);
  if (one_in(30)) to += length;
  if (one_in(30)) std::swap(from, to);
  bool ok = agent(i).knows(s) && from <= to && to <= length, u = ok && is_settled(i, s) && one_in(3);
  play("slice", making(i), {i}, [&] { return EITHER(u, slice, answer, &handles[i], s, from, to); }, [&] { return ok ? agent(i).slice(s, from, to) : REFUSED; });
}

void settle() {
  int i = some_agent();
  jsstr_id s = some_id(i);
  bool ok = agent(i).knows(s);
  play("is_settled", NOTHING, {i}, [&] { return answer(jsstr_is_settled(&handles[i], s)); }, [&] { return ok ? value(is_settled(i, s)) : REFUSED; });
  if (one_in(2)) return;
  play("settle", NOTHING, {i}, [&] { return answer(jsstr_settle(&handles[i], s)); }, [&] {
    Answer settled = ok ? agent(i).heap->settle(s) : REFUSED;
    return settled.is_done() ? value(s) : settled;
  });
}

// The answer of a call that settles s: once it is, that of `then`.
template <class Then> Answer once_settled(int i, jsstr_id s, bool ok, Then then) {
  if (!ok) return REFUSED;
  Answer settled = agent(i).heap->settle(s);
  return settled.is_done() ? then() : Answer{settled.status()};
}

// The longest string that is read at once; longer ropes are made and not read whole.
constexpr size_t ROOM = 1 << 20;
uint16_t units_out[ROOM + 8];
uint8_t bytes_out[3 * ROOM + 8];
uint64_t words_out[ROOM];

template <class Out> void blank(Out *out, size_t count) { std::fill(out, out + count, Out(0x5A5A)); }

// What was written is these, and the next places are as they were.
template <class Out, class In> void wrote(const Out *out, const In &in) {
  for (size_t i = 0; i < in.size(); i++)
    if (out[i] != Out(in[i])) differs("another unit or byte was written");
  for (size_t i = in.size(); i < in.size() + 8; i++)
    if (out[i] != Out(0x5A5A)) differs("it wrote past the end");
}

void read() {
  int i = some_agent();
  jsstr_id s = some_id(i);
  uint32_t length = uint32_t(length_of(i, s)), from = chance(length + 1), count = chance(length - from + 1) + (one_in(30) ? length : 0);
  if (count > ROOM) return;
  bool ok = agent(i).knows(s) && from + count <= length;
  Text part;
  blank(units_out, count + 8);
  play("read", NOTHING, {i}, [&] { return answer(jsstr_read(&handles[i], s, from, units_out, count)); }, [&] {
    return once_settled(i, s, ok, [&] { part = units_of(i, s).substr(from, count); return answer(JSSTR_DONE); });
  });
  wrote(units_out, part);
}

void length() {
  int i = some_agent();
  jsstr_id s = some_id(i);
  bool ok = agent(i).knows(s);
  uint32_t length = uint32_t(length_of(i, s));
  play("length", NOTHING, {i}, [&] { return EITHER(ok && one_in(3), length, value, &handles[i], s); }, [&] { return ok ? value(length) : REFUSED; });
}

void unit_at() {
  int i = some_agent();
  jsstr_id s = some_id(i);
  uint32_t length = uint32_t(length_of(i, s)), place = one_in(20) ? length : chance(length + 1);
  bool ok = agent(i).knows(s) && place < length, u = ok && is_settled(i, s) && one_in(3);
  play("unit_at", NOTHING, {i}, [&] { return EITHER(u, unit_at, value, &handles[i], s, place); }, [&] { return once_settled(i, s, ok, [&] { return value(units_of(i, s)[place]); }); });
}

void encode() {
  int i = some_agent();
  jsstr_id s = some_id(i);
  uint32_t unpaired = one_in(30) ? 3 + chance(9) : chance(3);
  bool is_utf8 = one_in(2), ok = agent(i).knows(s) && (!is_utf8 || unpaired <= JSSTR_KEEP);
  const Text units = agent(i).knows(s) ? units_of(i, s) : Text();
  const Utf8 utf8(units, unpaired == JSSTR_REPLACE);
  size_t wide = std::find_if(units.begin(), units.end(), [](char16_t it) { return it > 255; }) - units.begin();
  const Bytes right = is_utf8 ? utf8.bytes : Bytes(units.begin(), units.end());
  size_t room = one_in(2) ? right.size() : chance(uint32_t(right.size()) + 9), unmapped = is_utf8 ? unpaired == JSSTR_REFUSE ? utf8.unpaired : SIZE_MAX : wide < units.size() ? wide : SIZE_MAX;
  if (room > 3 * ROOM) return;
  Bytes written;
  blank(bytes_out, room + 8);
  play(is_utf8 ? "to_utf8" : "to_latin1", NOTHING, {i}, [&] {
    return is_utf8 ? answer(jsstr_to_utf8(&handles[i], s, unpaired, bytes_out, room)) : answer(jsstr_to_latin1(&handles[i], s, bytes_out, room));
  }, [&] { return once_settled(i, s, ok, [&] { return encoded(right, unmapped, room, written); }); });
  wrote(bytes_out, written);
}

void number_of() {
  int i = some_agent();
  jsstr_id s = some_id(i);
  bool ok = agent(i).knows(s), u = is_settled(i, s) && one_in(3), hashes = one_in(2);
  play(hashes ? "hash" : "array_index", NOTHING, {i}, [&] { return hashes ? EITHER(u, hash, value, &handles[i], s) : answer(jsstr_array_index(&handles[i], s)); }, [&] {
    return once_settled(i, s, ok, [&] { return hashes ? value(hash_of(units_of(i, s))) : array_index(units_of(i, s)); });
  });
}

// The words are where the forms say, and the lanes of the string have its units.
void window() {
  int i = some_agent();
  jsstr_id s = some_id(i);
  uint32_t at = one_in(3) ? chance(9) : 0, room = one_in(3) ? chance(9) : 600;
  bool ok = agent(i).knows(s), u = is_settled(i, s) && one_in(3);
  blank(words_out, 609);
  Answer got = REFUSED;
  play("window", NOTHING, {i}, [&] { return got = EITHER(u, window, answer, &handles[i], s, at, words_out, room); }, [&] {
    return once_settled(i, s, ok, [&] {
      const Heap &heap = *agent(i).heap;
      const String &own = heap.strings[s], &home = heap.seen(own.form == SLICED ? own.first : s);
      uint32_t lanes = home.wide ? 4 : 8, lane = own.form == SLICED ? own.second % lanes : 0, length = uint32_t(own.units.size());
      uint32_t all = length ? (lane + length + lanes - 1) / lanes : 0, count = std::min(at < all ? all - at : 0, room);
      return Answer{JSSTR_DONE, home.wide, lane, length, count};
    });
  });
  if (!got.is_done()) return;
  uint32_t bits = got.numbers[1] ? 16 : 8, lanes = 64 / bits;
  for (uint32_t k = 0; k < got.numbers[3]; k++) {
    uint32_t word = (got.numbers[2] + k) / lanes;
    if (word >= at && word < at + got.numbers[4])
      CHECK((words_out[word - at] >> (got.numbers[2] + k) % lanes * bits & (bits == 16 ? 0xFFFF : 0xFF)) == units_of(i, s)[k]);
  }
  for (uint32_t k = got.numbers[4]; k < 609; k++) CHECK(words_out[k] == 0x5A5A);
}

void compare() {
  int i = some_agent();
  jsstr_id a = some_id(i), b = one_in(9) ? a : some_id(i);
  bool ok = agent(i).knows(a) && agent(i).knows(b), u = is_settled(i, a) && is_settled(i, b) && one_in(3), orders = one_in(2);
  play(orders ? "compare" : "equal", NOTHING, {i}, [&] { return orders ? answer(jsstr_compare(&handles[i], a, b)) : EITHER(u, equal, value, &handles[i], a, b); }, [&] {
    return once_settled(i, a, ok, [&] {
      return once_settled(i, b, true, [&] { return orders ? order(units_of(i, a), units_of(i, b)) : value(units_of(i, a) == units_of(i, b)); });
    });
  });
}

void compare_given() {
  int i = some_agent();
  jsstr_id s = some_id(i);
  Given g;
  if (g.is_too_long() && (g.kind == UNITS || g.kind == LATIN1)) g.len = g.kind == UNITS ? g.units.size() : g.bytes.size();
  bool ok = agent(i).knows(s) && !g.is_too_long() && g.is_encoded(), orders = one_in(2);
  jsstr_agent *a = &handles[i];
  play(orders ? "compare_given" : "equals_given", NOTHING, {i}, [&] {
    if (g.kind == UNITS) return orders ? answer(jsstr_compare_units(a, s, g.list(), g.len)) : answer(jsstr_equals_units(a, s, g.list(), g.len));
    return orders ? answer(jsstr_compare_bytes(a, s, g.encoding, g.bytes.data(), g.len)) : answer(jsstr_equals_bytes(a, s, g.encoding, g.bytes.data(), g.len));
  }, [&] {
    if (ok && g.fault != SIZE_MAX) return Answer{JSSTR_NOT_UTF8};
    return once_settled(i, s, ok, [&] { return orders ? order(units_of(i, s), g.units) : value(units_of(i, s) == g.units); });
  });
}

void search() {
  int i = some_agent(), kind = int(chance(3));
  jsstr_id hay = some_id(i), needle = some_id(i);
  uint32_t length = uint32_t(length_of(i, hay)), at = one_in(9) ? chance(1u << 31) * 2 + 1 : chance(length + 2);
  bool ok = agent(i).knows(hay) && agent(i).knows(needle) && (kind != 1 || at <= length);
  jsstr_agent *a = &handles[i];
  const char *const names[] = {"starts_with", "index_of", "last_index_of"};
  play(names[kind], NOTHING, {i}, [&] {
    if (kind == 0) return answer(jsstr_starts_with(a, hay, needle, at));
    return kind == 1 ? answer(jsstr_index_of(a, hay, needle, at)) : answer(jsstr_last_index_of(a, hay, needle, at));
  }, [&] {
    return once_settled(i, hay, ok, [&] {
      return once_settled(i, needle, true, [&] {
        const Text &h = units_of(i, hay), &n = units_of(i, needle);
        return kind == 0 ? value(at <= h.size() && h.compare(at, n.size(), n) == 0) : place(kind == 1 ? h.find(n, at) : h.rfind(n, at));
      });
    });
  });
}

void intern() {
  int i = some_agent();
  jsstr_id s = some_id(i);
  bool ok = agent(i).knows(s), u = is_settled(i, s) && one_in(3);
  play("intern", QUIET, {i}, [&] { return EITHER(u, intern, answer, &handles[i], s); }, [&] { return ok ? agent(i).intern(s) : REFUSED; });
}

void many() {
  int i = some_agent();
  Text units;
  std::vector<uint32_t> ends;
  for (uint32_t count = chance(5); count--; ends.push_back(uint32_t(units.size()))) units += some_units();
  bool ok = agent(i).heap;
  if (one_in(20) && !ends.empty()) {
    uint32_t k = chance(uint32_t(ends.size())), wrong = k ? ends[k - 1] - 1 : uint32_t(units.size()) + 1;
    if (k && !ends[k - 1]) wrong = uint32_t(units.size()) + 1;
    ends[k] = wrong;
    ok = false;
  }
  jsstr_id ids[8];
  size_t room = ends.size() + chance(2);
  if (one_in(20) && room) room = chance(uint32_t(ends.size()) + 1);
  ok = ok && room >= ends.size();
  std::vector<jsstr_id> right;
  std::fill(ids, ids + 8, 0x5A5Au);
  ends.push_back(0);
  size_t count = ends.size() - 1;
  play("intern_many", QUIET, {i}, [&] {
    return answer(jsstr_intern_many(&handles[i], reinterpret_cast<const uint16_t *>(units.data()), units.size(), ends.data(), count, ids, room));
  }, [&] {
    right.clear();
    if (!ok) return REFUSED;
    Answer last = {JSSTR_DONE};
    for (size_t k = 0, from = 0; k < count && last.is_done(); from = ends[k++]) {
      last = agent(i).intern_units(units.substr(from, ends[k] - from));
      if (last.is_done()) right.push_back(last.numbers[1]);
    }
    last.numbers[1] = uint32_t(right.size());
    return last;
  });
  for (size_t k = 0; k < 8; k++) CHECK(ids[k] == (k < right.size() ? right[k] : 0x5A5Au));
}

void keys() {
  int i = some_agent();
  jsstr_id s = some_key(i);
  bool is_live = agent(i).heap, ok = agent(i).has_interned(s);
  play("is_interned", NOTHING, {i}, [&] { return answer(jsstr_is_interned(&handles[i], s)); }, [&] { return is_live ? value(ok) : REFUSED; });
  play("slot_of", NOTHING, {i}, [&] { return answer(jsstr_slot_of(&handles[i], s)); }, [&] { return ok ? value(agent(i).heap->slot_for(units_of(i, s))) : REFUSED; });
  uint32_t slot = one_in(20) ? chance(1u << 31) * 2 : chance(is_live ? agent(i).heap->size.slots + 1 : 9);
  bool there = is_live && slot < agent(i).heap->size.slots;
  play("adopt", NOTHING, {i}, [&] { return answer(jsstr_adopt(&handles[i], slot)); }, [&] { return there ? agent(i).adopt(slot) : REFUSED; });
}

// A copy for another agent: of the same heap, or of the other one.
void carry() {
  int i = some_agent(), j = some_agent();
  if (i == j) return;
  jsstr_id s = some_id(i);
  bool ok = agent(i).knows(s) && agent(j).heap, interns = one_in(2);
  auto settles = [&] { if (ok) agent(i).heap->settle(s); };
  play(interns ? "intern_into" : "copy_into", MAY, {i, j}, [&] {
    return interns ? answer(jsstr_intern_into(&handles[i], s, &handles[j])) : answer(jsstr_copy_into(&handles[i], s, &handles[j]));
  }, [&] {
    if (!ok) return REFUSED;
    Answer settled = agent(i).heap->settle(s);
    if (!settled.is_done()) return settled;
    const Text units = units_of(i, s);
    return interns ? agent(j).intern_units(units) : agent(j).make(units);
  }, settles);
}

// ---- Texts that are built up

void append() {
  Given g;
  if (world.built.size() > 300 || g.is_too_long()) return;
  play("build", MAY, {}, [&] {
    if (g.kind == UNITS) return answer(jsstr_build_units(&text, g.list(), g.len));
    return answer(jsstr_build_bytes(&text, g.encoding, g.bytes.data(), g.len));
  }, [&] {
    if (!g.is_encoded()) return REFUSED;
    if (g.fault != SIZE_MAX) return g.not_utf8();
    world.built += g.units;
    return answer(JSSTR_DONE);
  });
}

void append_number() {
  int64_t number = int64_t(uint64_t(chance(1u << 31)) << 31 | chance(1u << 31)) >> chance(62);
  number = (one_in(2) ? number : -number) % (int64_t(1) << 53);
  std::string digits = std::to_string(number);
  if (world.built.size() > 300) return;
  play("build_number", MAY, {}, [&] { return answer(jsstr_build_number(&text, number)); }, [&] {
    world.built.append(digits.begin(), digits.end());
    return answer(JSSTR_DONE);
  });
}

void append_string() {
  int i = some_agent();
  jsstr_id s = some_id(i);
  if (world.built.size() > 300) return;
  bool ok = agent(i).knows(s);
  play("build_string", MAY, {i}, [&] { return answer(jsstr_build_string(&text, &handles[i], s)); }, [&] {
    return once_settled(i, s, ok, [&] {
      world.built += units_of(i, s);
      return answer(JSSTR_DONE);
    });
  }, [&] { if (ok) agent(i).heap->settle(s); });
}

void build() {
  uint32_t kind = chance(8);
  if (kind < 3) return append();
  if (kind == 3) return append_number();
  if (kind == 4) return append_string();
  int i = some_agent();
  bool ok = agent(i).heap, interns = one_in(2);
  play(interns ? "built_interned" : "built", interns ? QUIET : making(i), {i}, [&] {
    return interns ? answer(jsstr_built_interned(&text, &handles[i])) : answer(jsstr_built(&text, &handles[i]));
  }, [&] {
    Answer made = !ok ? REFUSED : interns ? agent(i).intern_units(world.built) : agent(i).make(world.built);
    if (made.is_done()) world.built.clear();
    return made;
  });
  if (!one_in(9)) return;
  jsstr_drop_builder(&text);
  world.built.clear();
  CHECK(!text.at && !text.live && text.len == 0);
}

// ---- Agents

// A zero handle, or the number of agents.
int some_free() {
  for (int j = 0; j < FAR; j++)
    if (!agent(j).heap) return j;
  return AGENTS;
}

void split() {
  int i = int(chance(FAR)), j = one_in(20) ? int(chance(FAR)) : some_free();
  if (j == AGENTS || i == j) return;
  uint32_t give = one_in(9) ? chance(9) : 1 + chance(2);
  bool ok = agent(i).heap && give >= 1 && give < agent(i).share && !agent(j).heap;
  play("split", ok ? MAY : NOTHING, {i, j}, [&] { return answer(jsstr_split(&handles[i], give, &handles[j])); }, [&] {
    if (!ok) return REFUSED;
    agent(i).split(give, ++numbers, agent(j));
    return answer(JSSTR_DONE);
  });
}

void join() {
  int i = int(chance(AGENTS)), j = int(chance(AGENTS));
  if (i == j) return;
  bool ok = agent(i).heap && agent(j).heap && agent(j).giver == agent(i).number;
  play("join", NOTHING, {i, j}, [&] { return answer(jsstr_join(&handles[i], &handles[j])); }, [&] {
    if (!ok) return REFUSED;
    agent(i).join(agent(j));
    return answer(JSSTR_DONE);
  });
}

// Frees an agent that isn't the last one.
void drop() {
  int i = int(chance(FAR)), live = 0;
  for (int j = 0; j < FAR; j++) live += agent(j).heap != nullptr;
  bool ok = agent(i).heap;
  if (!one_in(12) || (ok && live < 2)) return;
  play("free", NOTHING, {i}, [&] { return answer(jsstr_free(&handles[i])); }, [&] {
    agent(i) = Agent();
    return ok ? answer(JSSTR_DONE) : REFUSED;
  });
}

void count() {
  int i = some_agent();
  const Agent &a = agent(i);
  bool is_whole = a.heap && a.share == a.heap->shares;
  play("share", NOTHING, {i}, [&] { return answer(jsstr_share(&handles[i])); }, [&] { return a.heap ? value(a.share) : REFUSED; });
  play("count_interned", NOTHING, {i}, [&] { return answer(jsstr_count_interned(&handles[i])); }, [&] { return is_whole ? value(a.heap->used_slots()) : REFUSED; });
}

uint32_t some_block(uint32_t most) { return one_in(3) ? 0 : one_in(20) ? most : one_in(40) ? chance(1u << 29) : chance(8); }

void reserve() {
  int i = some_agent();
  Agent &a = agent(i);
  uint32_t ids = some_block(a.heap ? a.heap->size.ids : 9), words = some_block(a.heap ? a.heap->size.words : 9);
  if (ids > 600) ids = 600;
  play("reserve", a.heap ? MAY : NOTHING, {i}, [&] { return answer(jsstr_reserve(&handles[i], ids, words)); }, [&] { return agent(i).heap ? agent(i).reserve(ids, words) : REFUSED; }, [&] {
    uint32_t had = uint32_t(agent(i).ids.size()), has = jsstr_reserved(&handles[i]).ids;
    CHECK(has >= had && has < had + ids);
    if (has > had) agent(i).reserve(has - had, words);
  });
}

void renew() {
  int i = some_agent();
  Use blocks = {some_block(400), some_block(2000)};
  if (one_in(3)) blocks = {0, 0};
  bool ok = agent(i).heap;
  play("renew", NOTHING, {i}, [&] { return answer(jsstr_renew(&handles[i], blocks.ids, blocks.words)); }, [&] {
    if (ok) agent(i).blocks = blocks;
    return ok ? answer(JSSTR_DONE) : REFUSED;
  });
}

// ---- Heaps

// Sizes, agents or a limit past a bound make no heap; a handle that isn't zero is refused before that.
void make_none() {
  jsstr_size size = {1 + chance(9), 1 + chance(9), 1 + chance(9)};
  uint32_t agents = 1 + chance(64), limit = chance(99), *const sizes[] = {&size.ids, &size.words, &size.slots};
  switch (chance(4)) {
  case 0: *sizes[chance(3)] = one_in(2) ? 0 : 1u << 29; break;
  case 1: size = {1u << 28, 1u << 28, 1 + chance(9)}; break;
  case 2: agents = one_in(2) ? 0 : 65 + chance(9); break;
  default: limit = JSSTR_MAX_LENGTH + 1 + chance(9);
  }
  int i = int(chance(AGENTS));
  bool ok = !agent(i).heap;
  play("make", NOTHING, {i}, [&] { return answer(jsstr_make(size, agents, limit, &handles[i])); },
       [&] { return ok ? Answer{JSSTR_BAD_SIZE} : REFUSED; });
}

void make(int i) {
  jsstr_size size = {1 + (one_in(3) ? chance(450) : chance(40)), 1 + (one_in(3) ? chance(2050) : chance(120)), 1 + (one_in(3) ? chance(300) : chance(30))};
  const uint32_t limits[] = {0, chance(12), 12, 13, 14, 40, 200, 600, JSSTR_MAX_LENGTH}, limit = limits[2 + chance(7) - (one_in(9) ? 1 + chance(2) : 0)], shares = 1 + chance(i == FAR ? 1 : 6);
  for (bool is_made = false; !is_made;)
    play("make", MAY, {i}, [&] { return answer(jsstr_make(size, shares, limit, &handles[i])); }, [&] {
      auto &heap = world.heaps[i == FAR];
      heap = std::make_unique<Heap>(size, shares, limit);
      Agent &a = agent(i);
      a.heap = heap.get();
      a.share = shares;
      a.number = ++numbers;
      a.known.resize(size.ids);
      a.interned.resize(size.ids);
      is_made = true;
      return answer(JSSTR_DONE);
    });
}

void end() {
  for (int i = 0; i < AGENTS; i++) {
    if (handles[i].live) CHECK(jsstr_free(&handles[i]) == JSSTR_DONE && !handles[i].at && !handles[i].live);
    agent(i) = Agent();
  }
}

void begin() {
  end();
  make(0);
  make(FAR);
}

// The calls, some of them several times, so that they are made more often.
void (*const CALLS[])() = {from, from, from, key, key, key, concat, concat, concat, concat, slice, slice, slice, settle, read, length, unit_at, encode, encode, number_of, window, compare, compare_given,
                           search, intern, intern, many, keys, carry, build, build, split, join, drop, count, reserve, renew, make_none};

// How much of the heap is left doesn't grow, so a world goes on for a while once it is full, and then makes room for another one.
void play_worlds(uint64_t count) {
  uint64_t until = 0;
  while (calls < count) {
    if (calls >= until) {
      begin();
      until = calls + 200 + chance(3000);
    }
    CALLS[chance(sizeof CALLS / sizeof *CALLS)]();
    if (one_in(50)) check_seen({0, 1, 2, 3, 4, 5});
  }
  end();
  jsstr_drop_builder(&text);
}

} // namespace

extern "C" {
void *__real_malloc(size_t n);
void *__real_realloc(void *p, size_t n);
void __real_free(void *p);
void *__wrap_malloc(size_t n);
void *__wrap_realloc(void *p, size_t n);
void __wrap_free(void *p);

static bool is_denied() {
  if (!is_inside) return false;
  asked++;
  return left == 0 || left-- == 0;
}
void *__wrap_malloc(size_t n) { return is_denied() ? nullptr : __real_malloc(n); }
void *__wrap_realloc(void *p, size_t n) { return is_denied() ? nullptr : __real_realloc(p, n); }
void __wrap_free(void *p) { __real_free(p); }
}

int main(int count, char **words) {
  uint64_t most = count > 1 ? std::strtoull(words[1], nullptr, 10) : 200000;
  state = seed = count > 2 ? std::strtoull(words[2], nullptr, 10) : 1;
  CHECK(jsstr_version() == JSSTR_VERSION_NUMBER);
  play_worlds(most);
  std::printf("%" PRIu64 " calls, none differs:", calls);
  for (uint32_t i = 0; i < 12; i++) std::printf(" %s %" PRIu64, jsstr_status_name(i) + 6, seen[i]);
  std::printf("\n");
}
