// The same wrapper with JSSTR_THROW: a call answers its value, and a refusal is an exception.
#define JSSTR_THROW
#include "jsstr.hpp"
#include <cstdio>
#include <cstdlib>
#include <cstring>

#define CHECK(c) do { if (!(c)) { std::printf("line %d: %s\n", __LINE__, #c); std::exit(1); } } while (0)

using namespace jsstr::literals;

// A greeting for each name, until the heap is full.
static int greetings(jsstr::agent &agent) {
  jsstr::string hello = agent.from(u"Hello, my dear "_js);
  int count = 0;
  try {
    for (;; count++) {
      jsstr::string text = agent.concat(hello, agent.from(jsstr::encoding::utf8, "Zo\xC3\xAB"));
      CHECK(agent.utf8(text) == "Hello, my dear Zo\xC3\xAB" && agent.index_of(text, hello) == 0u);
    }
  } catch (const jsstr::failure &full) {
    CHECK(full.why().why == jsstr::status::no_ids && full.why().end == 16 && !std::strcmp(full.what(), "JSSTR_NO_IDS"));
  }
  return count;
}

int main() {
  try {
    jsstr::agent::make({1, 1, 0});
    CHECK(false);
  } catch (const jsstr::failure &bad) {
    CHECK(bad.why().why == jsstr::status::bad_size);
  }
  jsstr::agent agent = jsstr::agent::make({16, 64, 7}, 2), other = agent.split();
  jsstr::key key = other.intern(u"key"_js);
  agent.join(std::move(other));
  CHECK(!other && agent.length(key) == 3 && agent.share() == 2);
  jsstr::builder text;
  text.append(u"ke"_js);
  text.append(jsstr::encoding::latin1, "y");
  CHECK(text.interned(agent) == key && agent.adopt(agent.slot_of(key)) == key && agent.room().ids > 0);
  std::printf("%d greetings, then the heap is full\n", greetings(agent));
}
