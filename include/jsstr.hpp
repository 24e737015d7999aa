// The string heap of jsstr for C++17: this header alone, over jsstr.h and libjsstr.a.
//
//     using namespace jsstr::literals;
//     jsstr::agent agent = jsstr::agent::make({65536, 262144, 65537}).value();
//     jsstr::string s = agent.from(jsstr::encoding::utf8, "caf\xC3\xA9").value();
//     jsstr::key k = agent.intern(u"length"_js).value();
//
// A call that may be refused answers a jsstr::result, which has a value or says why not, as std::expected
// does; value() throws jsstr::failure where there is none. With JSSTR_THROW defined before this header is
// included, such a call answers the value itself and throws. In a program that is compiled without exceptions
// both end it by std::abort.
//
// What jsstr.h says of a call holds here. Each call is the form that tests its condition: where it fails, the
// status is bad_argument, and no string and no heap has changed. This header is tested, and not proved.
#ifndef JSSTR_HPP
#define JSSTR_HPP
#include "jsstr.h"
#include <cstddef>
#include <cstdint>
#include <cstdlib>
#include <functional>
#include <memory>
#include <new>
#include <optional>
#include <stdexcept>
#include <string>
#include <string_view>
#include <type_traits>
#include <utility>
#include <variant>
#include <vector>

namespace jsstr {

/// Why a call has no value.
enum class status : std::uint32_t {
  done = JSSTR_DONE,
  no_memory = JSSTR_NO_MEMORY,
  bad_size = JSSTR_BAD_SIZE,
  no_ids = JSSTR_NO_IDS,
  no_words = JSSTR_NO_WORDS,
  no_slots = JSSTR_NO_SLOTS,
  too_long = JSSTR_TOO_LONG,
  none = JSSTR_NONE,
  not_utf8 = JSSTR_NOT_UTF8,
  bad_argument = JSSTR_BAD_ARGUMENT,
  no_room = JSSTR_NO_ROOM,
  unmapped = JSSTR_UNMAPPED
};

/// A refusal: its status, and the numbers that jsstr.h gives beside it, else 0.
struct refusal {
  status why = status::done;
  std::uint32_t at = 0, want = 0, end = 0;

  /// The name that jsstr.h has for the status.
  const char *name() const noexcept { return jsstr_status_name(static_cast<std::uint32_t>(why)); }
};

/// A refusal as an exception.
class failure : public std::runtime_error {
public:
  explicit failure(const refusal &what) : std::runtime_error(what.name()), told(what) {}
  const refusal &why() const noexcept { return told; }

private:
  refusal told;
};

/// A string of a heap, or none. Two strings with equal units may have different numbers, so these don't
/// compare: agent::equal does, and keys do.
class string {
public:
  constexpr string() noexcept = default;
  constexpr explicit string(jsstr_id id) noexcept : number(id) {}
  constexpr jsstr_id id() const noexcept { return number; }
  constexpr explicit operator bool() const noexcept { return number != JSSTR_NO_STRING; }

private:
  jsstr_id number = JSSTR_NO_STRING;
};

/// An interned string: of all strings of its heap with equal units there is one, so keys compare by number.
/// The order is that of numbers, which is no order of units.
class key : public string {
public:
  using string::string;
  friend constexpr bool operator==(key a, key b) noexcept { return a.id() == b.id(); }
  friend constexpr bool operator!=(key a, key b) noexcept { return a.id() != b.id(); }
  friend constexpr bool operator<(key a, key b) noexcept { return a.id() < b.id(); }
};

/// Units of a literal of the program: u"length"_js.
struct literal {
  std::u16string_view units;
};

inline namespace literals {
constexpr literal operator""_js(const char16_t *units, std::size_t count) noexcept { return {{units, count}}; }
} // namespace literals

/// How many ids, words and slots a heap has for all its life. Choose a prime number of slots, at least 2.6 for
/// each string that is to be interned.
struct size {
  std::uint32_t ids, words, slots;
};

/// How many ids and words were used, by all agents of a heap; or are in reserve.
struct use {
  std::uint32_t ids, words;
};

/// How full a heap is: what was used of its ids and words by all agents, of how many; how many slots of the string
/// table this agent knows to be used, of how many.
struct room {
  std::uint32_t ids, words, seen_slots;
  std::uint32_t all_ids, all_words, slots;
};

/// What becomes of a surrogate that is in no pair, which UTF-8 has no bytes for: U+FFFD is written in its place
/// (String.prototype.toWellFormed), the call is refused, or it is written in three bytes, as WTF-8 has it.
enum class unpaired : std::uint32_t { replace = JSSTR_REPLACE, refuse = JSSTR_REFUSE, keep = JSSTR_KEEP };

/// How bytes spell units.
enum class encoding : std::uint32_t { latin1 = JSSTR_LATIN1, utf8 = JSSTR_UTF8, wtf8 = JSSTR_WTF8 };

/// What a call answers that has no value of its own.
struct nothing {};

// What depends on how a file is compiled has a name of its own there, so that one program may have files that
// are compiled in either way.
#if defined(JSSTR_THROW) && defined(__cpp_exceptions)
inline namespace throwing {
#elif defined(JSSTR_THROW)
inline namespace aborting {
#elif defined(__cpp_exceptions)
inline namespace answering {
#else
inline namespace answering_or_aborting {
#endif

/// A value, or a refusal.
template <class T> class [[nodiscard]] result {
public:
  result(T value) : held(std::in_place_index<0>, std::move(value)) {}
  result(refusal why) : held(std::in_place_index<1>, why) {}

  bool has_value() const noexcept { return held.index() == 0; }
  explicit operator bool() const noexcept { return has_value(); }

  /// The value; where there is none, jsstr::failure is thrown.
  T &value() & { return has_value() ? *std::get_if<0>(&held) : fail(); }
  const T &value() const & { return has_value() ? *std::get_if<0>(&held) : fail(); }
  T value() && { return std::move(value()); }
  T value_or(T other) && { return has_value() ? std::move(value()) : std::move(other); }

  /// The refusal; its status is `done` where there is a value.
  refusal error() const noexcept { return has_value() ? refusal{} : *std::get_if<1>(&held); }

private:
  std::variant<T, refusal> held;

  [[noreturn]] T &fail() const {
#if defined(__cpp_exceptions)
    throw failure(error());
#else
    std::abort();
#endif
  }
};

#if defined(JSSTR_THROW)
template <class T> using answer = T;
#else
template <class T> using answer = result<T>;
#endif

/// An agent of a heap, by which one thread at a time makes, reads and interns strings. It can be moved, also
/// to another thread, and is never copied. Its handle has a cache line of its own: each call reads it, and nothing that
/// another thread writes lies beside it.
///
/// A string may be given to the agent that made it, to agents that were split off from that one later, and to
/// the one into which it was joined; else the call answers bad_argument.
class agent {
public:
  static constexpr std::uint32_t max_length = JSSTR_MAX_LENGTH;

  /// A heap, with its first agent, which has the whole share: `agents`, 1 to 64.
  static answer<agent> make(size of, std::uint32_t agents = 1, std::uint32_t limit = max_length) {
    return filled([&](jsstr_agent *out) { return jsstr_make({of.ids, of.words, of.slots}, agents, limit, out); });
  }

  agent(agent &&) noexcept = default;
  agent &operator=(agent &&) noexcept = default;

  /// Whether there is an agent: not after it was moved from or joined.
  explicit operator bool() const noexcept { return line != nullptr; }

  /// An agent of the same heap with `give` of the share, which knows all that this one knows.
  answer<agent> split(std::uint32_t give = 1) {
    return filled([&](jsstr_agent *out) { return jsstr_split(handle(), give, out); });
  }

  /// Takes over an agent that was split off from this one, with all that it has and knows. Where it is
  /// refused, `other` stays what it was.
  answer<nothing> join(agent &&other) {
    if (!line || !other.line || &other == this) return given(refused<nothing>(JSSTR_BAD_ARGUMENT));
    const std::uint32_t code = jsstr_join(handle(), other.handle());
    if (code == JSSTR_DONE) other.line.reset();
    return given(done(code));
  }

  /// Claims words in one piece, and then ids, for later strings of this agent, which then touch nothing that agents
  /// share. They are used, whether or not a string takes them.
  answer<nothing> reserve(std::uint32_t ids, std::uint32_t words) { return given(claimed(jsstr_reserve(handle(), ids, words))); }

  /// Sets how many ids and words it claims at once from now on, where a new string finds too few reserved; 0 and 0 stop it.
  answer<nothing> renew(std::uint32_t ids, std::uint32_t words) { return given(done(jsstr_renew(handle(), ids, words))); }

  /// How many ids and words are reserved, and left.
  answer<use> reserved() { return given(used(jsstr_reserved(handle()))); }

  answer<std::uint32_t> share() { return given(number(jsstr_share(handle()))); }

  answer<string> from(std::u16string_view units) {
    return given(made<string>(jsstr_from_units(handle(), data(units), units.size())));
  }
  answer<string> from(literal text) { return from(text.units); }
  answer<string> from(encoding how, std::string_view bytes) {
    return given(made<string>(jsstr_from_bytes(handle(), number_of(how), data(bytes), bytes.size())));
  }

  answer<string> concat(string a, string b) { return given(made<string>(jsstr_concat(handle(), a.id(), b.id()))); }
  answer<string> slice(string s, std::uint32_t from, std::uint32_t to) {
    return given(made<string>(jsstr_slice(handle(), s.id(), from, to)));
  }
  answer<string> settle(string s) { return given(made<string>(jsstr_settle(handle(), s.id()))); }
  answer<std::uint32_t> length(string s) { return given(number(jsstr_length(handle(), s.id()))); }

  /// The units of s from number `from` on, `count` of them, into `out`.
  answer<nothing> read(string s, std::uint32_t from, char16_t *out, std::size_t count) {
    return given(done(jsstr_read(handle(), s.id(), from, reinterpret_cast<std::uint16_t *>(out), count)));
  }

  /// All units of s.
  answer<std::u16string> units(string s) { return given(units_of(s)); }

  /// Unit number `at` of s.
  answer<char16_t> unit(string s, std::uint32_t at) {
    const jsstr_number found = jsstr_unit_at(handle(), s.id(), at);
    return given(found.status == JSSTR_DONE ? result<char16_t>(static_cast<char16_t>(found.value)) : refused<char16_t>(found.status));
  }

  /// The UTF-8 of s. A refusal of an unpaired surrogate has the status unmapped and its place.
  answer<std::string> utf8(string s, unpaired surrogate = unpaired::replace) {
    const auto way = static_cast<std::uint32_t>(surrogate);
    return given(bytes([&](std::uint8_t *out, std::size_t room) { return jsstr_to_utf8(handle(), s.id(), way, out, room); }));
  }

  /// The units of s, a byte each. A refusal of a unit over 255 has the status unmapped and its place.
  answer<std::string> latin1(string s) {
    return given(bytes([&](std::uint8_t *out, std::size_t room) { return jsstr_to_latin1(handle(), s.id(), out, room); }));
  }

  /// The number of s as an array index, a property key in ECMA-262, if it is one.
  answer<std::optional<std::uint32_t>> array_index(string s) {
    const jsstr_number found = jsstr_array_index(handle(), s.id());
    return given(place({found.status, found.value}));
  }

  /// The hash of the units of s by which the string table looks for them.
  answer<std::uint32_t> hash(string s) { return given(number(jsstr_hash(handle(), s.id()))); }
  answer<bool> is_settled(string s) { return given(truth(jsstr_is_settled(handle(), s.id()))); }

  /// Below 0, 0 or above 0, as the units of a come before those of b, are the same, or come after them.
  answer<int> compare(string a, string b) { return given(order(jsstr_compare(handle(), a.id(), b.id()))); }
  answer<bool> equal(string a, string b) { return given(truth(jsstr_equal(handle(), a.id(), b.id()))); }

  /// The same of units or bytes that are in no string.
  answer<int> compare(string s, std::u16string_view units) {
    return given(order(jsstr_compare_units(handle(), s.id(), data(units), units.size())));
  }
  answer<int> compare(string s, literal text) { return compare(s, text.units); }
  answer<bool> equal(string s, std::u16string_view units) {
    return given(truth(jsstr_equals_units(handle(), s.id(), data(units), units.size())));
  }
  answer<bool> equal(string s, literal text) { return equal(s, text.units); }
  answer<int> compare(string s, encoding how, std::string_view bytes) {
    return given(order(jsstr_compare_bytes(handle(), s.id(), number_of(how), data(bytes), bytes.size())));
  }
  answer<bool> equal(string s, encoding how, std::string_view bytes) {
    return given(truth(jsstr_equals_bytes(handle(), s.id(), number_of(how), data(bytes), bytes.size())));
  }
  answer<bool> starts_with(string hay, string needle, std::uint32_t at = 0) {
    return given(truth(jsstr_starts_with(handle(), hay.id(), needle.id(), at)));
  }
  answer<std::optional<std::uint32_t>> index_of(string hay, string needle, std::uint32_t from = 0) {
    return given(place(jsstr_index_of(handle(), hay.id(), needle.id(), from)));
  }
  answer<std::optional<std::uint32_t>> last_index_of(string hay, string needle, std::uint32_t limit = max_length) {
    return given(place(jsstr_last_index_of(handle(), hay.id(), needle.id(), limit)));
  }

  /// The one string of the heap's string table with the units of s.
  answer<key> intern(string s) { return given(made<key>(jsstr_intern(handle(), s.id()))); }

  /// The same of units or bytes that are in no string yet. Nothing is used where the table has their string.
  answer<key> intern(std::u16string_view units) {
    return given(made<key>(jsstr_intern_units(handle(), data(units), units.size())));
  }
  answer<key> intern(literal text) { return intern(text.units); }
  answer<key> intern(encoding how, std::string_view bytes) {
    return given(made<key>(jsstr_intern_bytes(handle(), number_of(how), data(bytes), bytes.size())));
  }

  /// The keys of many lists of units in one call. They lie one behind another, and number k ends before
  /// units[ends[k]]. A refusal is that of the first list that is refused; those before it are interned.
  answer<std::vector<key>> intern_many(std::u16string_view units, const std::vector<std::uint32_t> &ends) {
    std::vector<jsstr_id> ids(ends.size() + 1);
    const std::uint32_t empty = 0;
    const jsstr_batch all = jsstr_intern_many(handle(), data(units), units.size(), ends.empty() ? &empty : ends.data(), ends.size(), ids.data(), ids.size());
    using keys = std::vector<key>;
    return given(all.status == JSSTR_DONE ? result<keys>(keys(ids.begin(), ids.end() - 1)) : result<keys>(made<key>({all.status, JSSTR_NO_STRING, all.at, all.want, all.end}).error()));
  }

  /// The one string of the string table with these units, if it has one. Nothing is used.
  answer<std::optional<key>> find(std::u16string_view units) {
    return given(found(jsstr_find_units(handle(), data(units), units.size())));
  }
  answer<std::optional<key>> find(literal text) { return find(text.units); }
  answer<std::optional<key>> find(encoding how, std::string_view bytes) {
    return given(found(jsstr_find_bytes(handle(), number_of(how), data(bytes), bytes.size())));
  }

  /// The slot of the string table that a key is in. An agent of the same heap that gets this number adopts the key.
  answer<std::uint32_t> slot_of(key k) { return given(number(jsstr_slot_of(handle(), k.id()))); }

  /// The key in a slot, which is known from then on, if the slot isn't free.
  answer<std::optional<key>> adopt(std::uint32_t slot) { return given(found(jsstr_adopt(handle(), slot))); }

  /// A new string of another heap with the units of s, a string of this one, and the one string of its string
  /// table with them. Where both agents are of one heap, s is copied within it.
  answer<string> copy_into(string s, agent &to) {
    if (!line || !to.line || &to == this) return given(refused<string>(JSSTR_BAD_ARGUMENT));
    return given(made<string>(jsstr_copy_into(handle(), s.id(), to.handle())));
  }
  answer<key> intern_into(string s, agent &to) {
    if (!line || !to.line || &to == this) return given(refused<key>(JSSTR_BAD_ARGUMENT));
    return given(made<key>(jsstr_intern_into(handle(), s.id(), to.handle())));
  }

  /// Whether s is an interned string of this agent, so that its number makes a key.
  answer<bool> is_interned(string s) { return given(truth(jsstr_is_interned(handle(), s.id()))); }

  answer<std::uint32_t> count_interned() { return given(number(jsstr_count_interned(handle()))); }

  /// How full the heap is, also while other agents run.
  answer<jsstr::room> room() {
    const jsstr_room seen = jsstr_room_of(handle());
    if (seen.status != JSSTR_DONE) return given(refused<jsstr::room>(seen.status));
    return given(result<jsstr::room>({seen.ids, seen.words, seen.seen_slots, seen.all_ids, seen.all_words, seen.slots}));
  }

  /// The handle, for the calls of jsstr.h. It stays this agent's: don't copy, free or join it by hand.
  jsstr_agent *handle() noexcept { return line ? &line->handle : &none(); }

private:
  friend class builder;

  struct alignas(64) owned {
    jsstr_agent handle{};
    owned() = default;
    owned(const owned &) = delete;
    owned &operator=(const owned &) = delete;
    ~owned() {
      if (handle.at) jsstr_free(&handle);
    }
  };
  std::unique_ptr<owned> line;

  explicit agent(std::unique_ptr<owned> handle) noexcept : line(std::move(handle)) {}

  // A handle that is zero, with which each call answers bad_argument.
  static jsstr_agent &none() noexcept {
    static thread_local jsstr_agent zero{};
    return zero;
  }

  template <class Fill> static answer<agent> filled(Fill fill) {
    std::unique_ptr<owned> handle(new (std::nothrow) owned);
    const std::uint32_t code = handle ? fill(&handle->handle) : std::uint32_t{JSSTR_NO_MEMORY};
    return given(code == JSSTR_DONE ? result<agent>(agent(std::move(handle))) : refused<agent>(code));
  }

  template <class T> static answer<T> given(result<T> told) {
#if defined(JSSTR_THROW)
    return std::move(told).value();
#else
    return told;
#endif
  }

  template <class T> static result<T> refused(std::uint32_t code) { return refusal{static_cast<status>(code)}; }
  static result<nothing> done(std::uint32_t code) { return code == JSSTR_DONE ? result<nothing>(nothing{}) : refused<nothing>(code); }
  template <class T> static result<T> made(const jsstr_answer &a) {
    if (a.status == JSSTR_DONE) return T(a.id);
    return refusal{static_cast<status>(a.status), a.at, a.want, a.end};
  }
  static result<nothing> claimed(const jsstr_answer &a) {
    return a.status == JSSTR_DONE ? result<nothing>(nothing{}) : result<nothing>(made<string>(a).error());
  }
  static result<use> used(const jsstr_counts &u) {
    return u.status == JSSTR_DONE ? result<use>(use{u.ids, u.words}) : refused<use>(u.status);
  }
  static result<std::optional<key>> found(const jsstr_answer &a) {
    using maybe = std::optional<key>;
    if (a.status == JSSTR_DONE) return maybe(a.id);
    return a.status == JSSTR_NONE ? result<maybe>(maybe()) : result<maybe>(made<key>(a).error());
  }
  static result<std::uint32_t> number(const jsstr_number &n) {
    return n.status == JSSTR_DONE ? result<std::uint32_t>(n.value) : refused<std::uint32_t>(n.status);
  }
  static result<bool> truth(const jsstr_truth &t) {
    return t.status == JSSTR_DONE ? result<bool>(t.holds) : refused<bool>(t.status);
  }
  static result<int> order(const jsstr_order &o) {
    return o.status == JSSTR_DONE ? result<int>(o.order) : refused<int>(o.status);
  }
  static result<std::optional<std::uint32_t>> place(const jsstr_place &p) {
    using maybe = std::optional<std::uint32_t>;
    if (p.status == JSSTR_NONE) return maybe();
    return p.status == JSSTR_DONE ? result<maybe>(maybe(p.at)) : refused<maybe>(p.status);
  }

  static std::uint32_t number_of(encoding how) noexcept { return static_cast<std::uint32_t>(how); }

  // A pointer that isn't null, also where there are no units.
  static const std::uint16_t *data(std::u16string_view units) noexcept {
    static constexpr std::uint16_t empty = 0;
    return units.empty() ? &empty : reinterpret_cast<const std::uint16_t *>(units.data());
  }
  static const std::uint8_t *data(std::string_view bytes) noexcept {
    static constexpr std::uint8_t empty = 0;
    return bytes.empty() ? &empty : reinterpret_cast<const std::uint8_t *>(bytes.data());
  }

  result<std::u16string> units_of(string s) {
    const jsstr_number length = jsstr_length(handle(), s.id());
    if (length.status != JSSTR_DONE) return refused<std::u16string>(length.status);
    std::u16string out(length.value, u'\0');
    const std::uint32_t code = jsstr_read(handle(), s.id(), 0, reinterpret_cast<std::uint16_t *>(out.data()), out.size());
    return code == JSSTR_DONE ? result<std::u16string>(std::move(out)) : refused<std::u16string>(code);
  }

  // The bytes that a call writes, whose number it says where there is no room.
  template <class Write> static result<std::string> bytes(Write write) {
    std::uint8_t none = 0;
    std::string out;
    jsstr_bytes answer = write(&none, 0);
    if (answer.status == JSSTR_NO_ROOM) {
      out.resize(answer.size);
      answer = write(reinterpret_cast<std::uint8_t *>(out.data()), out.size());
    }
    if (answer.status != JSSTR_DONE) return refusal{static_cast<status>(answer.status), answer.at};
    return out;
  }
};

/// A text that is built up, outside any heap, until a string is made of it. After a refusal it is what it was. It
/// can be moved, and is empty then, and is never copied.
class builder {
public:
  builder() noexcept = default;
  builder(builder &&other) noexcept : text(std::exchange(other.text, {})) {}
  builder &operator=(builder &&other) noexcept {
    builder old(std::move(other));
    std::swap(text, old.text);
    return *this;
  }
  ~builder() { jsstr_drop_builder(&text); }

  answer<nothing> append(std::u16string_view units) {
    return agent::given(agent::done(jsstr_build_units(&text, agent::data(units), units.size())));
  }
  answer<nothing> append(literal of) { return append(of.units); }
  answer<nothing> append(encoding how, std::string_view bytes) {
    return agent::given(agent::claimed(jsstr_build_bytes(&text, agent::number_of(how), agent::data(bytes), bytes.size())));
  }

  /// The units of a string of this agent.
  answer<nothing> append(agent &of, jsstr::string s) { return agent::given(agent::done(jsstr_build_string(&text, of.handle(), s.id()))); }

  /// The decimal digits of a number. Its type is one of these two, so that no character is taken for a number.
  template <class T, class = std::enable_if_t<std::is_same_v<T, std::int32_t> || std::is_same_v<T, std::int64_t>>>
  answer<nothing> append(T number) {
    return agent::given(agent::done(jsstr_build_number(&text, number)));
  }

  /// How many units there are.
  std::uint32_t length() const noexcept { return text.len; }

  /// A new string with these units, and the one string of the string table with them. The text is empty then.
  answer<jsstr::string> string(agent &to) { return agent::given(agent::made<jsstr::string>(jsstr_built(&text, to.handle()))); }
  answer<key> interned(agent &to) { return agent::given(agent::made<key>(jsstr_built_interned(&text, to.handle()))); }

private:
  jsstr_builder text{};
};

} // inline namespace

} // namespace jsstr

template <> struct std::hash<jsstr::key> {
  std::size_t operator()(jsstr::key k) const noexcept { return std::hash<jsstr_id>()(k.id()); }
};
#endif
