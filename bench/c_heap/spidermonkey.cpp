// The same rows of SpiderMonkey, by its C++ API. Search and order of strings are those of scripts, a call for 10^6
// units. Roots hold what a row makes.
#include "rows.h"
#include <js/CompilationAndEvaluation.h>
#include <js/Equality.h>
#include <js/Initialization.h>
#include <js/SourceText.h>
#include <jsapi.h>

namespace {

using Strings = JS::RootedVector<JSString *>;

JSContext *cx;

JSString *made_of(const Text &text) {
  JSString *made = JS_NewUCStringCopyN(cx, text.data(), text.size());
  want(made);
  return made;
}

JSString *interned_of(const Text &text) {
  JSString *made = JS_AtomizeUCStringN(cx, text.data(), text.size());
  want(made);
  return made;
}

void make_all(Strings &to, const std::vector<Text> &texts, JSString *(*as)(const Text &) = made_of) {
  for (const Text &it : texts) want(to.append(as(it)));
}

// As many strings, of keys in an order in which no neighbours follow.
void make_scrambled(Strings &to) {
  for (uint32_t i = 0; i < STRINGS; i++) want(to.append(made_of(keys()[scrambled(i, KEYS)])));
}

template <class One> double making(uint32_t kept, One one) {
  Strings made(cx);
  want(made.resize(kept));
  return timed(STRINGS, [&](uint32_t i) {
    JSString *it = one(i);
    want(it);
    made[i % kept].set(it);
  });
}

double make(uint32_t kept) {
  return making(kept, [](uint32_t i) { return made_of(pool()[i % POOL]); });
}

double from_latin1(uint32_t kept) {
  std::vector<std::string> bytes;
  for (const Text &it : pool()) bytes.emplace_back(it.begin(), it.end());
  return making(kept, [&](uint32_t i) { return JS_NewStringCopyN(cx, bytes[i % POOL].data(), bytes[i % POOL].size()); });
}

double make_long() {
  return timed(10, [](uint32_t) { use(made_of(long_text())); }) / LONG;
}

double join(uint32_t kept, const std::vector<Text> &texts) {
  Strings from(cx);
  make_all(from, texts);
  return making(kept, [&](uint32_t i) { return JS_ConcatStrings(cx, from[i % from.length()], from[(i + 1) % from.length()]); });
}

double cut(uint32_t kept, uint32_t length) {
  Strings from(cx);
  make_all(from, forties());
  return making(kept, [&](uint32_t i) { return JS_NewDependentString(cx, from[i % POOL], 1 + i % (39 - length), length); });
}

// A rope that grows by a unit at a time.
double grow(JS::MutableHandle<JSString *> rope) {
  JS::Rooted<JSString *> unit(cx, made_of(u"x"));
  rope.set(made_of(Text(20, u'a')));
  return timed(KEYS, [&](uint32_t) {
    rope.set(JS_ConcatStrings(cx, rope, unit));
    want(rope);
  });
}

double append() {
  JS::Rooted<JSString *> rope(cx);
  return grow(&rope);
}

double flatten() {
  JS::Rooted<JSString *> rope(cx);
  grow(&rope);
  return timed(1, [&](uint32_t) { want(JS_EnsureLinearString(cx, rope)); }) / (KEYS + 20);
}

double length() {
  Strings made(cx);
  make_all(made, keys());
  return timed(STRINGS, [&](uint32_t i) { want(JS_GetStringLength(made[i % KEYS]) == 9); });
}

double read_short() {
  Strings made(cx);
  make_all(made, nines());
  return timed(STRINGS, [&](uint32_t i) {
    char16_t units[9];
    want(JS_CopyStringChars(cx, mozilla::Range<char16_t>(units, 9), made[i % POOL]));
    use(units);
  });
}

double read_long() {
  static char16_t units[READ];
  Strings made(cx);
  make_all(made, read_texts());
  return timed(4000, [&](uint32_t i) {
    want(JS_CopyStringChars(cx, mozilla::Range<char16_t>(units, READ), made[i % 16]));
    use(units);
  });
}

bool are_equal(JS::HandleValue one, JS::HandleValue other) {
  bool equal = false;
  want(JS::StrictlyEqual(cx, one, other, &equal));
  return equal;
}

double equal_short() {
  JS::RootedVector<JS::Value> made(cx), again(cx);
  for (const Text &it : keys()) want(made.append(JS::StringValue(made_of(it))) && again.append(JS::StringValue(made_of(it))));
  return timed(STRINGS, [&](uint32_t i) { want(are_equal(made[i % KEYS], again[i % KEYS])); });
}

double equal_long() {
  JS::Rooted<JS::Value> a(cx, JS::StringValue(made_of(long_text()))), b(cx, JS::StringValue(made_of(long_text())));
  return timed(20, [&](uint32_t) { want(are_equal(a, b)); }) / LONG;
}

double compare_long() {
  JS::Rooted<JSString *> a(cx, made_of(long_text())), b(cx, made_of(long_rival()));
  return timed(20, [&](uint32_t) {
    int32_t order = 0;
    want(JS_CompareStrings(cx, a, b, &order) && order < 0);
  }) / LONG;
}

double search() {
  static const char SOURCE[] = "(function(a, b) { return a.indexOf(b) })";
  JS::CompileOptions options(cx);
  JS::SourceText<mozilla::Utf8Unit> source;
  JS::Rooted<JS::Value> function(cx), place(cx);
  want(source.init(cx, SOURCE, sizeof SOURCE - 1, JS::SourceOwnership::Borrowed) && JS::Evaluate(cx, options, source, &function));
  JS::RootedVector<JS::Value> arguments(cx);
  want(arguments.append(JS::StringValue(made_of(searched_text()))) && arguments.append(JS::StringValue(made_of(SOUGHT))));
  return timed(20, [&](uint32_t) {
    want(JS_CallFunctionValue(cx, nullptr, function, arguments, &place) && place.isInt32() && place.toInt32() == int32_t(LONG - 2));
  }) / LONG;
}

double intern(Strings &made) {
  JS::Rooted<jsid> id(cx);
  return timed(uint32_t(made.length()), [&](uint32_t i) { want(JS_StringToId(cx, made[i], &id)); });
}

double cold() {
  Strings made(cx);
  make_all(made, new_texts(KEYS));
  return intern(made);
}

double hit(int times) {
  Strings there(cx), made(cx);
  make_all(there, keys(), interned_of);
  make_scrambled(made);
  while (--times) intern(made);
  return intern(made);
}

double hit_itself() {
  Strings there(cx), made(cx);
  make_all(there, keys(), interned_of);
  for (uint32_t i = 0; i < STRINGS; i++) want(made.append(there[scrambled(i, KEYS)]));
  return intern(made);
}

double hit_units(const std::vector<Text> &keys) {
  Strings there(cx);
  make_all(there, keys, interned_of);
  return timed(STRINGS, [&](uint32_t i) { use(interned_of(keys[scrambled(i, uint32_t(keys.size()))])); });
}

// What earlier rows made is collected first.
void add(Rows &rows, const std::string &name, std::function<double()> measure) {
  rows.add(name, "SpiderMonkey", [measure] {
    JS_GC(cx);
    return measure();
  });
}

void add_all(Rows &rows) {
  for (uint32_t kept : KEPT) {
    add(rows, kept_name("make 5-12", kept), [kept] { return make(kept); });
    add(rows, kept_name("from Latin-1 5-12", kept), [kept] { return from_latin1(kept); });
    add(rows, kept_name("join 10-24", kept), [kept] { return join(kept, pool()); });
    add(rows, kept_name("join 100+100", kept), [kept] { return join(kept, hundreds()); });
    add(rows, kept_name("slice 3", kept), [kept] { return cut(kept, 3); });
    add(rows, kept_name("slice 20", kept), [kept] { return cut(kept, 20); });
  }
  add(rows, "make 10^6, a unit", make_long);
  add(rows, "append a unit", append);
  add(rows, "flatten, a unit", flatten);
  add(rows, "length", length);
  add(rows, "read 9", read_short);
  add(rows, "read 10,000", read_long);
  add(rows, "equal 9", equal_short);
  add(rows, "equal 10^6, a unit", equal_long);
  add(rows, "compare 10^6, a unit", compare_long);
  add(rows, "index_of 2 in 10^6, a unit", search);
  add(rows, "intern cold", cold);
  add(rows, "hit, new string", [] { return hit(1); });
  add(rows, "hit, interned before", [] { return hit(2); });
  add(rows, "hit, itself", hit_itself);
  add(rows, "hit by units, 256 keys", [] { return hit_units(hot_keys()); });
  add(rows, "hit by units, 100,000 keys", [] { return hit_units(keys()); });
  add(rows, "hit by units, 200,000 random", [] { return hit_units(random_keys()); });
  add(rows, "hit by units, 200,000 numbered", [] { return hit_units(numbered_keys()); });
}

} // namespace

int main() {
  static const JSClass GLOBAL = {"global", JSCLASS_GLOBAL_FLAGS, &JS::DefaultGlobalClassOps, nullptr, nullptr, nullptr};
  want(JS_Init());
  cx = JS_NewContext(1u << 31);
  want(cx && JS::InitSelfHostedCode(cx));
  JS::RealmOptions options;
  JS::Rooted<JSObject *> global(cx, JS_NewGlobalObject(cx, &GLOBAL, nullptr, JS::FireOnNewGlobalHook, options));
  want(global);
  JSAutoRealm realm(cx, global);
  Rows rows;
  add_all(rows);
  std::_Exit(rows.serve());
}
