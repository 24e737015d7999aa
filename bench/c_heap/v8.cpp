// The same rows of V8, by its C++ API: an addon that node loads, and which doesn't return. Search and order are those
// of scripts, a call for 10^6 units. The API has no way to intern a string that is there: a property is sought in an
// empty object, which interns its name first. Handles hold what a row makes.
#include "rows.h"
#include <node.h>

namespace {

using namespace v8;
using Strings = std::vector<Local<String>>;

Isolate *isolate;

Local<String> made_of(const Text &text, NewStringType type = NewStringType::kNormal) {
  return String::NewFromTwoByte(isolate, reinterpret_cast<const uint16_t *>(text.data()), type, int(text.size())).ToLocalChecked();
}
Local<String> interned_of(const Text &text) { return made_of(text, NewStringType::kInternalized); }

Strings all_made(const std::vector<Text> &texts, NewStringType type = NewStringType::kNormal) {
  Strings made;
  for (const Text &it : texts) made.push_back(made_of(it, type));
  return made;
}

// As many strings, of keys in an order in which no neighbours follow.
Strings scrambled_made(const Strings *of = nullptr) {
  Strings made;
  for (uint32_t i = 0; i < STRINGS; i++) {
    uint32_t key = scrambled(i, KEYS);
    made.push_back(of ? (*of)[key] : made_of(keys()[key]));
  }
  return made;
}

template <class One> double making(uint32_t kept, One one) {
  auto begin = Clock::now();
  for (uint32_t from = 0; from < STRINGS; from += kept) {
    HandleScope block(isolate);
    for (uint32_t i = from; i < std::min(from + kept, STRINGS); i++) use(one(i));
  }
  return nanoseconds_since(begin) / STRINGS;
}

double make(uint32_t kept) {
  return making(kept, [](uint32_t i) { return made_of(pool()[i % POOL]); });
}

double from_latin1(uint32_t kept) {
  std::vector<std::string> bytes;
  for (const Text &it : pool()) bytes.emplace_back(it.begin(), it.end());
  return making(kept, [&](uint32_t i) {
    const std::string &it = bytes[i % POOL];
    return String::NewFromOneByte(isolate, reinterpret_cast<const uint8_t *>(it.data()), NewStringType::kNormal, int(it.size())).ToLocalChecked();
  });
}

double make_long() {
  return timed(10, [](uint32_t) { use(made_of(long_text())); }) / LONG;
}

double join(uint32_t kept, const std::vector<Text> &texts) {
  Strings from = all_made(texts);
  return making(kept, [&](uint32_t i) { return String::Concat(isolate, from[i % from.size()], from[(i + 1) % from.size()]); });
}

// A rope that grows by a unit at a time.
std::pair<Local<String>, double> grown() {
  Local<String> unit = made_of(u"x"), rope = made_of(Text(20, u'a'));
  double time = timed(KEYS, [&](uint32_t) { rope = String::Concat(isolate, rope, unit); });
  return {rope, time};
}

// A read flattens first.
double flatten() {
  Local<String> rope = grown().first;
  return timed(1, [&](uint32_t) {
    uint16_t unit = 0;
    rope->Write(isolate, &unit, 0, 1);
    want(unit == u'a');
  }) / (KEYS + 20);
}

double length() {
  Strings made = all_made(keys());
  return timed(STRINGS, [&](uint32_t i) { want(made[i % KEYS]->Length() == 9); });
}

double read_short() {
  Strings made = all_made(nines());
  return timed(STRINGS, [&](uint32_t i) {
    uint16_t units[9];
    want(made[i % POOL]->Write(isolate, units, 0, 9, String::NO_NULL_TERMINATION) == 9);
    use(units);
  });
}

double read_long() {
  static uint16_t units[READ];
  Strings made = all_made(read_texts());
  return timed(4000, [&](uint32_t i) {
    want(made[i % 16]->Write(isolate, units, 0, READ, String::NO_NULL_TERMINATION) == int(READ));
    use(units);
  });
}

double equal_short() {
  Strings made = all_made(keys()), again = all_made(keys());
  return timed(STRINGS, [&](uint32_t i) { want(made[i % KEYS]->StringEquals(again[i % KEYS])); });
}

double equal_long() {
  Local<String> a = made_of(long_text()), b = made_of(long_text());
  return timed(20, [&](uint32_t) { want(a->StringEquals(b)); }) / LONG;
}

// ns a unit of a function of two strings.
template <class Right> double scripted(const char *source, const Text &one, const Text &other, Right right) {
  Local<Context> context = isolate->GetCurrentContext();
  Local<String> text = String::NewFromUtf8(isolate, source).ToLocalChecked();
  Local<Function> function = Script::Compile(context, text).ToLocalChecked()->Run(context).ToLocalChecked().As<Function>();
  Local<Value> arguments[] = {made_of(one), made_of(other)};
  return timed(20, [&](uint32_t) { want(right(function->Call(context, context->Global(), 2, arguments).ToLocalChecked())); }) / LONG;
}

double compare_long() {
  return scripted("(function(a, b) { return a < b })", long_text(), long_rival(), [](Local<Value> it) { return it->IsTrue(); });
}

double search() {
  return scripted("(function(a, b) { return a.indexOf(b) })", searched_text(), SOUGHT,
                  [](Local<Value> it) { return it.As<Int32>()->Value() == int32_t(LONG - 2); });
}

double intern(const Strings &made) {
  Local<Context> context = isolate->GetCurrentContext();
  Local<Object> empty = Object::New(isolate, Null(isolate), nullptr, nullptr, 0);
  return timed(uint32_t(made.size()), [&](uint32_t i) { want(!empty->HasOwnProperty(context, made[i]).FromJust()); });
}

double cold() {
  return intern(all_made(new_texts(KEYS)));
}

double hit() {
  Strings there = all_made(keys(), NewStringType::kInternalized);
  return intern(scrambled_made());
}

double hit_again() {
  Strings there = all_made(keys(), NewStringType::kInternalized), made = scrambled_made();
  intern(made);
  return intern(made);
}

double hit_itself() {
  Strings there = all_made(keys(), NewStringType::kInternalized);
  return intern(scrambled_made(&there));
}

double hit_units(const std::vector<Text> &keys) {
  Strings there = all_made(keys, NewStringType::kInternalized);
  return making(POOL, [&](uint32_t i) { return interned_of(keys[scrambled(i, uint32_t(keys.size()))]); });
}

// What earlier rows made is collected first.
void add(Rows &rows, const std::string &name, std::function<double()> measure) {
  rows.add(name, "V8", [measure] {
    isolate->LowMemoryNotification();
    HandleScope scope(isolate);
    return measure();
  });
}

void serve() {
  Rows rows;
  for (uint32_t kept : KEPT) {
    add(rows, kept_name("make 5-12", kept), [kept] { return make(kept); });
    add(rows, kept_name("from Latin-1 5-12", kept), [kept] { return from_latin1(kept); });
    add(rows, kept_name("join 10-24", kept), [kept] { return join(kept, pool()); });
    add(rows, kept_name("join 100+100", kept), [kept] { return join(kept, hundreds()); });
  }
  add(rows, "make 10^6, a unit", make_long);
  add(rows, "append a unit", [] { return grown().second; });
  add(rows, "flatten, a unit", flatten);
  add(rows, "length", length);
  add(rows, "read 9", read_short);
  add(rows, "read 10,000", read_long);
  add(rows, "equal 9", equal_short);
  add(rows, "equal 10^6, a unit", equal_long);
  add(rows, "compare 10^6, a unit", compare_long);
  add(rows, "index_of 2 in 10^6, a unit", search);
  add(rows, "intern cold", cold);
  add(rows, "hit, new string", hit);
  add(rows, "hit, interned before", hit_again);
  add(rows, "hit, itself", hit_itself);
  add(rows, "hit by units, 256 keys", [] { return hit_units(hot_keys()); });
  add(rows, "hit by units, 100,000 keys", [] { return hit_units(keys()); });
  add(rows, "hit by units, 200,000 random", [] { return hit_units(random_keys()); });
  add(rows, "hit by units, 200,000 numbered", [] { return hit_units(numbered_keys()); });
  rows.serve();
}

} // namespace

NODE_MODULE_INIT() {
  (void)exports, (void)module, (void)context;
  isolate = Isolate::GetCurrent();
  serve();
  std::_Exit(0);
}
