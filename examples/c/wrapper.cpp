// What jsstr.hpp has beyond its single calls, which calls.cpp makes: agents and texts that are moved, agents in threads, literals,
// arguments that may be left out, keys in a map, results and refusals. throwing.cpp has the form that throws.
#include "jsstr.hpp"
#include <cstdio>
#include <cstdlib>
#include <string>
#include <thread>
#include <unordered_map>
#include <vector>

#define CHECK(c) do { if (!(c)) { std::printf("line %d: %s\n", __LINE__, #c); std::exit(1); } } while (0)

using namespace jsstr::literals;
using jsstr::status;

static_assert(!std::is_copy_constructible_v<jsstr::agent> && !std::is_copy_assignable_v<jsstr::agent>);
static_assert(std::is_nothrow_move_constructible_v<jsstr::agent> && std::is_nothrow_move_assignable_v<jsstr::agent>);
static_assert(!std::is_convertible_v<jsstr_id, jsstr::string> && !std::is_convertible_v<jsstr::string, jsstr::key>);
static_assert(std::is_convertible_v<jsstr::key, jsstr::string> && sizeof(jsstr::key) == sizeof(jsstr_id));
static_assert(u"length"_js.units == u"length");
static_assert(!std::is_copy_constructible_v<jsstr::builder> && !std::is_copy_assignable_v<jsstr::builder>);
static_assert(std::is_nothrow_move_constructible_v<jsstr::builder> && std::is_nothrow_move_assignable_v<jsstr::builder>);

// Whether a text takes a value of this type.
template <class T, class = void> constexpr bool appends = false;
template <class T> constexpr bool appends<T, std::void_t<decltype(std::declval<jsstr::builder &>().append(std::declval<T>()))>> = true;
static_assert(appends<std::int64_t> && appends<std::int32_t> && appends<std::u16string_view> && appends<std::u16string> && appends<const char16_t *>);
static_assert(!appends<char> && !appends<char16_t> && !appends<bool> && !appends<std::uint32_t> && !appends<std::uint64_t> && !appends<const char *>);

// Literals of the program, in the place of units.
static void takes_literals(jsstr::agent &agent) {
  jsstr::string hello = agent.from(u"hello"_js).value();
  CHECK(agent.units(hello).value() == u"hello" && agent.equal(hello, u"hello"_js).value() && agent.compare(hello, u"hell"_js).value() > 0);
  jsstr::key key = agent.intern(u"hello"_js).value();
  CHECK(agent.find(u"hello"_js).value() == key && !agent.find(u"hallo"_js).value());
  jsstr::builder text;
  CHECK(text.append(u"hello"_js) && text.interned(agent).value() == key);
}

// What may be left out of a call, and what is empty.
static void takes_defaults(jsstr::agent &agent) {
  jsstr::string hello = agent.from(u"hello"_js).value(), world = agent.from(jsstr::encoding::utf8, " w\xC3\xB6rld \xF0\x9F\x98\x80").value();
  jsstr::string both = agent.concat(hello, world).value();
  CHECK(agent.units(both).value() == u"hello w\u00F6rld \U0001F600" && agent.utf8(both).value() == "hello w\xC3\xB6rld \xF0\x9F\x98\x80");
  CHECK(agent.starts_with(both, hello).value() && !agent.starts_with(both, world).value());
  CHECK(agent.index_of(both, world).value() == 5u && agent.last_index_of(both, hello).value() == 0u);
  CHECK(agent.length(agent.from(jsstr::encoding::latin1, {}).value()).value() == 0 && agent.length(agent.from(std::u16string_view()).value()).value() == 0);
  CHECK(agent.latin1(agent.from(jsstr::encoding::latin1, {}).value()).value().empty() && agent.units(agent.from(u""_js).value()).value().empty());
  jsstr::builder text;
  CHECK(text.append(std::u16string_view()) && text.append(jsstr::encoding::utf8, {}) && text.length() == 0);
}

static void moves_texts(jsstr::agent &agent) {
  jsstr::builder text;
  CHECK(text.append(u"moved"_js));
  jsstr::builder moved = std::move(text);
  CHECK(text.length() == 0 && moved.length() == 5 && text.append(u"dropped"_js));
  text = std::move(moved);
  CHECK(moved.length() == 0 && agent.units(text.string(agent).value()).value() == u"moved" && text.length() == 0);
  CHECK(text.append(std::int32_t(-12)) && agent.units(text.string(agent).value()).value() == u"-12");
}

static void moves_agents() {
  jsstr::agent small = jsstr::agent::make({1, 1, 1}, 1, 100).value();
  jsstr::string only = small.from(u"a"_js).value();
  jsstr::agent moved = std::move(small);
  CHECK(moved && !small && moved.length(only).value() == 1 && small.length(only).error().why == status::bad_argument);
  moved = jsstr::agent::make({4, 4, 4}).value();
  CHECK(moved.length(only).error().why == status::bad_argument);
}

// Two agents of one call are different ones.
static void copies_to_others(jsstr::agent &agent) {
  jsstr::agent other = jsstr::agent::make({64, 64, 31}).value(), tiny = jsstr::agent::make({1, 1, 1}).value();
  jsstr::string text = agent.from(std::u16string(u"x\xDC00\x20AC")).value();
  jsstr::string copy = agent.copy_into(text, other).value();
  CHECK(other.units(copy).value() == agent.units(text).value() && other.intern(copy).value() == agent.intern_into(text, other).value());
  CHECK(agent.copy_into(text, agent).error().why == status::bad_argument && agent.intern_into(text, agent).error().why == status::bad_argument);
  CHECK(agent.join(std::move(agent)).error().why == status::bad_argument && agent);
  const jsstr::refusal full = agent.copy_into(agent.from(u"twenty units and more"_js).value(), tiny).error();
  CHECK(full.why == status::no_words && full.at == 0 && full.want == 3 && full.end == 1);
}

// Many keys in one call, up to the first that is refused.
static void interns_many() {
  jsstr::agent agent = jsstr::agent::make({3, 9, 7}).value();
  std::vector<jsstr::key> keys = agent.intern_many(u"onetwoone", {3, 6, 9, 9}).value();
  CHECK(keys.size() == 4 && keys[0] == keys[2] && keys[1] == agent.intern(u"two"_js).value() && agent.units(keys[3]).value().empty());
  CHECK(agent.intern_many({}, {}).value().empty() && agent.intern_many(u"onenew", {3, 6}).error().why == status::no_ids);
}

static void maps_keys(jsstr::agent &agent) {
  std::unordered_map<jsstr::key, int> counts;
  for (const char *word : {"one", "two", "one", "three", "one"}) counts[agent.intern(jsstr::encoding::utf8, word).value()]++;
  const jsstr::key one = agent.intern(u"one"_js).value();
  CHECK(counts.size() == 3 && counts[one] == 3 && agent.intern(std::u16string_view(u"two")).value() != one);
  CHECK(agent.intern(agent.from(u"one"_js).value()).value() == one);
}

static void splits_and_joins(jsstr::agent &agent) {
  jsstr::key name = agent.intern(u"name"_js).value();
  std::vector<jsstr::agent> parts;
  for (int i = 0; i < 3; i++) parts.push_back(agent.split().value());
  CHECK(agent.share().value() == 1 && agent.split().error().why == status::bad_argument);
  std::vector<std::thread> threads;
  for (jsstr::agent &part : parts)
    threads.emplace_back([&part, name] { CHECK(part.intern(u"name"_js).value() == name); });
  for (std::thread &thread : threads) thread.join();
  CHECK(parts[0].join(std::move(agent)).error().why == status::bad_argument && agent);
  for (jsstr::agent &part : parts) {
    CHECK(agent.join(std::move(part)));
    CHECK(!part && part.length(name).error().why == status::bad_argument);
    CHECK(agent.join(std::move(part)).error().why == status::bad_argument && part.join(std::move(part)).error().why == status::bad_argument);
  }
  CHECK(agent.share().value() == 4 && agent.room().value().ids > 0);
}

// What a refusal says.
static void refuses() {
  jsstr::agent small = jsstr::agent::make({1, 1, 1}).value();
  const jsstr::refusal bytes = small.from(jsstr::encoding::utf8, "a\xC0\x80").error(), words = small.from(u"nine units"_js).error();
  CHECK(bytes.why == status::not_utf8 && bytes.at == 1 && std::string(bytes.name()) == "JSSTR_NOT_UTF8");
  CHECK(words.why == status::no_words && words.at == 0 && words.want == 2 && words.end == 1);
  jsstr::string only = small.from(u"a"_js).value();
  const jsstr::refusal ids = small.intern(u""_js).error();
  CHECK(ids.why == status::no_ids && ids.at == 1 && ids.want == 1 && ids.end == 1);
  CHECK(!jsstr::string() && only && small.length(jsstr::string()).error().why == status::bad_argument);
  CHECK(small.length(only).error().why == status::done && small.length(only).value_or(7) == 1 && small.length({}).value_or(7) == 7);
}

int main() {
  jsstr::agent agent = jsstr::agent::make({4096, 8192, 1031}, 4).value();
  takes_literals(agent);
  takes_defaults(agent);
  moves_texts(agent);
  moves_agents();
  copies_to_others(agent);
  interns_many();
  maps_keys(agent);
  splits_and_joins(agent);
  refuses();
  std::puts("ok");
}
