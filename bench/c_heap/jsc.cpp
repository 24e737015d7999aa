// The same rows of JavaScriptCore, as far as its C API has them. Search and order are those of scripts, a call for
// 10^6 units. Strings are interned as names of properties that are sought in an empty object.
#include "rows.h"
#include <JavaScriptCore/JavaScript.h>
#include <cstring>

namespace {

JSGlobalContextRef context;

JSStringRef made_of(const Text &text) {
  return JSStringCreateWithCharacters(reinterpret_cast<const JSChar *>(text.data()), text.size());
}

// Strings that are released at the end.
class Strings {
public:
  Strings() = default;
  explicit Strings(const std::vector<Text> &texts) { for (const Text &it : texts) add(it); }
  Strings(const Strings &) = delete;
  ~Strings() { for (JSStringRef it : all) JSStringRelease(it); }
  void add(const Text &text) { all.push_back(made_of(text)); }
  JSStringRef operator[](size_t i) const { return all[i]; }
  void renew(size_t i, const Text &text) { JSStringRelease(std::exchange(all[i], made_of(text))); }

private:
  std::vector<JSStringRef> all;
};

double make(uint32_t kept) {
  Strings made;
  for (uint32_t i = 0; i < kept; i++) made.add(u"");
  return timed(STRINGS, [&](uint32_t i) { made.renew(i % kept, pool()[i % POOL]); });
}

double make_long() {
  Strings made;
  return timed(10, [&](uint32_t) { made.add(long_text()); }) / LONG;
}

double length() {
  Strings made(keys());
  return timed(STRINGS, [&](uint32_t i) { want(JSStringGetLength(made[i % KEYS]) == 9); });
}

double read_short() {
  Strings made(nines());
  return timed(STRINGS, [&](uint32_t i) {
    JSChar units[9];
    std::memcpy(units, JSStringGetCharactersPtr(made[i % POOL]), sizeof units);
    use(units);
  });
}

double read_long() {
  static JSChar units[READ];
  Strings made(read_texts());
  return timed(4000, [&](uint32_t i) {
    std::memcpy(units, JSStringGetCharactersPtr(made[i % 16]), sizeof units);
    use(units);
  });
}

double equal_short() {
  Strings made(keys()), again(keys());
  return timed(STRINGS, [&](uint32_t i) { want(JSStringIsEqual(made[i % KEYS], again[i % KEYS])); });
}

double equal_long() {
  Strings made({long_text(), long_text()});
  return timed(20, [&](uint32_t) { want(JSStringIsEqual(made[0], made[1])); }) / LONG;
}

// ns a unit of a function of two strings, which answers a number.
double scripted(const char *source, const Text &one, const Text &other, double right) {
  JSStringRef text = JSStringCreateWithUTF8CString(source);
  JSObjectRef function = JSValueToObject(context, JSEvaluateScript(context, text, nullptr, nullptr, 1, nullptr), nullptr);
  JSStringRelease(text);
  Strings made({one, other});
  JSValueRef arguments[] = {JSValueMakeString(context, made[0]), JSValueMakeString(context, made[1])};
  return timed(20, [&](uint32_t) {
    JSValueRef answer = JSObjectCallAsFunction(context, function, nullptr, 2, arguments, nullptr);
    want(answer && JSValueToNumber(context, answer, nullptr) == right);
  }) / LONG;
}

double compare_long() { return scripted("(function(a, b) { return a < b ? 1 : 0 })", long_text(), long_rival(), 1); }
double search() { return scripted("(function(a, b) { return a.indexOf(b) })", searched_text(), SOUGHT, LONG - 2); }

double hit_units(const std::vector<Text> &keys) {
  JSObjectRef empty = JSObjectMake(context, nullptr, nullptr), full = JSObjectMake(context, nullptr, nullptr);
  JSValueProtect(context, empty);
  JSValueProtect(context, full);
  JSObjectSetPrototype(context, empty, JSValueMakeNull(context));
  for (const Text &it : keys) {
    JSStringRef key = made_of(it);
    JSObjectSetProperty(context, full, key, JSValueMakeNull(context), kJSPropertyAttributeNone, nullptr);
    JSStringRelease(key);
  }
  double time = timed(STRINGS, [&](uint32_t i) {
    JSStringRef key = made_of(keys[scrambled(i, uint32_t(keys.size()))]);
    want(!JSObjectHasProperty(context, empty, key));
    JSStringRelease(key);
  });
  JSValueUnprotect(context, full);
  JSValueUnprotect(context, empty);
  return time;
}

} // namespace

int main() {
  context = JSGlobalContextCreate(nullptr);
  want(context);
  Rows rows;
  for (uint32_t kept : KEPT) rows.add(kept_name("make 5-12", kept), "JSC", [kept] { return make(kept); });
  rows.add("make 10^6, a unit", "JSC", make_long);
  rows.add("length", "JSC", length);
  rows.add("read 9", "JSC", read_short);
  rows.add("read 10,000", "JSC", read_long);
  rows.add("equal 9", "JSC", equal_short);
  rows.add("equal 10^6, a unit", "JSC", equal_long);
  rows.add("compare 10^6, a unit", "JSC", compare_long);
  rows.add("index_of 2 in 10^6, a unit", "JSC", search);
  rows.add("hit by units, 256 keys", "JSC", [] { return hit_units(hot_keys()); });
  rows.add("hit by units, 100,000 keys", "JSC", [] { return hit_units(keys()); });
  std::_Exit(rows.serve());
}
