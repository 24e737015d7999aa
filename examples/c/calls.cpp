// The calls of calls.h by C++: each row's call answers and changes what the row says, and what it is refused with is the same as in C.
// Compiled with JSSTR_THROW, it plays the same rows by values and exceptions. Prints "ok".
#include "play.h"
#include <cstring>
#include <optional>
#include <string>
#include <type_traits>
#include <utility>
#include <vector>

// What a call of any kind answers, as numbers: units and bytes go where a call of C writes them, an agent into `out`.
template <class T, class = std::enable_if_t<std::is_arithmetic_v<T>>> static answer shown(world *, T n) { return ANSWER(JSSTR_DONE, std::uint32_t(n)); }
static answer shown(world *, jsstr::nothing) { return ANSWER(JSSTR_DONE); }
static answer shown(world *, jsstr::string s) { return ANSWER(JSSTR_DONE, s.id()); }
static answer shown(world *, jsstr::use u) { return ANSWER(JSSTR_DONE, u.ids, u.words); }
static answer shown(world *, jsstr::room r) { return ANSWER(JSSTR_DONE, r.ids, r.words, r.all_ids, r.all_words, r.slots, r.seen_slots); }
template <class T> static answer shown(world *w, const std::optional<T> &maybe) { return maybe ? shown(w, *maybe) : ANSWER(JSSTR_NONE); }

static answer shown(world *w, const std::u16string &units) {
  CHECK(units.size() <= 64);
  units.copy(w->units, 64);
  return ANSWER(JSSTR_DONE, 0, std::uint32_t(units.size()));
}

static answer shown(world *w, const std::string &bytes) {
  CHECK(bytes.size() <= 64);
  bytes.copy(w->bytes, 64);
  return ANSWER(JSSTR_DONE, 0, std::uint32_t(bytes.size()));
}

static answer shown(world *w, const std::vector<jsstr::key> &keys) {
  CHECK(keys.size() <= 3);
  for (std::size_t i = 0; i < keys.size(); i++) w->ids[i] = keys[i].id();
  return ANSWER(JSSTR_DONE, std::uint32_t(keys.size()));
}

static answer shown(world *w, jsstr::agent agent) {
  w->out = std::move(agent);
  return ANSWER(JSSTR_DONE);
}

// A refusal, by the fields that the call of C has for it. Where there is no such place or key, that is a value.
template <class T> static answer refused(const jsstr::refusal &why) {
  const auto status = static_cast<std::uint32_t>(why.why);
  CHECK(status != JSSTR_DONE && status != JSSTR_NONE);
  if (!std::is_same_v<T, std::string>) return ANSWER(status, 0, why.at, why.want, why.end);
  CHECK(!why.want && !why.end);
  return ANSWER(status, why.at);
}

template <class T> static answer told(world *w, T value) { return shown(w, std::move(value)); }
template <class T> static answer told(world *w, jsstr::result<T> value) {
  if (!value) return refused<T>(value.error());
  CHECK(value.error().why == jsstr::status::done && value.has_value());
  return shown(w, std::move(value).value());
}

// A row without a call is never played.
static answer told(world *, untried) { std::abort(); }

template <class Call> static answer tried(world *w, Call call) {
#if defined(JSSTR_THROW)
  try {
    return told(w, call());
  } catch (const jsstr::failure &it) {
    return refused<decltype(call())>(it.why());
  }
#else
  return told(w, call());
#endif
}

// The end of an object.
template <class T> static jsstr::nothing ended(T &it) {
  const T gone = std::move(it);
  return {};
}

#define DEFINED(name, takes, call, method, is_right) \
  static answer name##_call(world *w) { return tried(w, [&] { return method; }); } \
  static expected name##_expected(world *w) { (void)w; return is_right; }
CALLS(DEFINED)

#define LISTED(name, takes, call, method, is_right) {#name, #method, #is_right, takes, name##_call, name##_expected},
static const row rows[] = {CALLS(LISTED)};

// The value of a call, which it answers or has in its result.
template <class T> static T value_of(T value) { return value; }
template <class T> static T value_of(jsstr::result<T> value) {
  CHECK(value);
  return std::move(value).value();
}

static jsstr_id built(any_builder *text, world *w) { return value_of(text->string(w->one)).id(); }

// No agent, as where one was moved from.
static jsstr::agent nobody() {
  jsstr::agent some = value_of(jsstr::agent::make({1, 1, 1}));
  const jsstr::agent gone = std::move(some);
  return some;
}

static world begun() {
  jsstr::agent one = value_of(jsstr::agent::make(size, 4, 100)), far = value_of(jsstr::agent::make(size, 1, 100));
  value_of(far.reserve(3, 9));
  const jsstr::string plain = value_of(one.from({twin, 11})), rope = value_of(one.concat(plain, plain)), same = value_of(one.from({TWIN_UNITS})), other_units = value_of(one.from({wide, 8}));
  jsstr::agent other = value_of(one.split(2));
  const jsstr::key known = value_of(one.intern({KEY_UNITS}));
  const jsstr::string theirs = value_of(other.from(jsstr::encoding::latin1, "theirs"));
  jsstr::builder six, full;
  value_of(six.append({text, 6}));
  value_of(full.append({UNITS}));
  world w{std::move(one), std::move(other), std::move(far), nobody(), nobody(), std::move(six), std::move(full), {}, plain, rope, same, other_units, known, theirs, {}, {}, {}, {}, 6};
  blank(&w);
  return w;
}

// The answer is the one that is expected, and so is all that has changed.
static void play(const row &r) {
  world w = begun();
  const state before = seen(&w);
  const expected e = r.leads(&w);
  const answer got = r.call(&w);
  const state now = seen(&w), right = after(&w, before, &e);
  check_answer(&r, &w, got, e);
  check_state(&now, &right);
  for (jsstr::agent *it : {&w.one, &w.other, &w.far, &w.out}) CHECK(bool(*it) == bool(it->handle()->live));
}

// Whether a row calls an agent, and meets the condition.
static bool is_checked(const row &r) {
  const bool has_agent = std::strstr(r.text, "w->one") || std::strstr(r.text, "w->other") || std::strstr(r.text, "w->far");
  return has_agent && !std::strstr(r.text, "ended(") && std::strcmp(r.shown, "is_refused()");
}

// The call where all agents were moved from: it is refused, and nothing has changed.
static void empty_handles(const row &r) {
  world w = begun();
  const state before = seen(&w);
  jsstr::agent *const agents[] = {&w.one, &w.other, &w.far};
  std::vector<jsstr::agent> kept;
  for (jsstr::agent *it : agents) kept.push_back(std::move(*it));
  CHECK(is_same(r.call(&w), ANSWER(JSSTR_BAD_ARGUMENT)));
  for (std::size_t i = 0; i < 3; i++) {
    CHECK(!*agents[i]);
    *agents[i] = std::move(kept[i]);
  }
  const state now = seen(&w);
  check_state(&now, &before);
}

int main() {
  for (const row &r : rows) {
    if (!std::strcmp(r.text, "NO_METHOD") || !std::strcmp(r.text, "IMPOSSIBLE")) continue;
    playing = r.name;
    play(r);
    if (is_checked(r)) empty_handles(r);
  }
  std::puts("ok");
}
