/* Regular expressions for untrusted patterns and texts, for C++17 and later, over regex_lite.h.
 *
 *     const rxl::Regex date(R"((?<year>\d{4})-(?<month>\d{2}))");
 *     for (const rxl::Captures &caps : date.captures_iter("2026-11, 2027-02"))
 *         std::cout << caps["month"] << '/' << caps["year"] << '\n';
 *
 * A rxl::Regex is a compiled pattern, a rxl::RegexList several that are searched for in one pass,
 * and a rxl::Searcher a pattern for one thread, with memory that it keeps. Texts are UTF-8, and
 * offsets count bytes. A match begins and ends on character boundaries.
 *
 * ERRORS. A call throws rxl::Error, or std::bad_alloc if memory runs out. Its counterpart with a
 * name that begins with try_ throws neither and returns a rxl::Expected. Without exceptions, as
 * with -fno-exceptions, a call of the first kind ends the process instead.
 *
 * LIFETIMES. A match refers to the text, and to nothing else, so the text has to outlive it. Each
 * call whose result would refer to a temporary std::string rejects it at compile time. Iterators,
 * and the groups of a match, keep what they need of the regex alive.
 *
 * THREADS. Several threads may search with one Regex or RegexList: one at a time, while the others
 * wait, but no lock is held while the caller's code runs. A copy shares the compiled pattern, so it
 * is cheap; clone() compiles the pattern again, for another thread that is to search at the same
 * time. A Searcher has no lock, and each thread has its own.
 */
#ifndef REGEX_LITE_HPP
#define REGEX_LITE_HPP

#include "regex_lite.h"

#include <algorithm>
#include <array>
#include <atomic>
#include <cstddef>
#include <cstdint>
#include <cstdio>
#include <cstdlib>
#include <exception>
#include <initializer_list>
#include <iterator>
#include <limits>
#include <memory>
#include <mutex>
#include <new>
#include <optional>
#include <string>
#include <string_view>
#include <type_traits>
#include <utility>
#include <variant>
#include <vector>

namespace rxl {

/// The place of a pattern's first fault, in bytes: from `start` to `end`. If `is_cut_short`, some
/// accepted pattern begins with this one, as when a group is open.
using Fault = regex_lite_fault;

/// The cost of a search: how many states of the NFA (places) it `tried`, `entered` and `looked` up.
using Cost = regex_lite_cost;

/// The kind of an error.
enum class ErrorKind : std::uint32_t {
    not_text = REGEX_LITE_NOT_TEXT,           ///< the pattern or the text is not valid UTF-8
    bad_offset = REGEX_LITE_BAD_OFFSET,       ///< beyond the text's end, or inside a character
    out_of_memory = REGEX_LITE_OUT_OF_MEMORY, ///< memory ran out
    no_group = REGEX_LITE_NO_GROUP,           ///< the pattern has no such group
    no_pattern = REGEX_LITE_NO_PATTERN,       ///< the list has no pattern with this number
    syntax = REGEX_LITE_SYNTAX,               ///< the pattern has bad syntax
    nesting = REGEX_LITE_NESTING,             ///< it nests deeper than the limit
    groups = REGEX_LITE_GROUPS,               ///< it has more groups than can be numbered
    size = REGEX_LITE_SIZE,                   ///< it is larger than the limit
    places = REGEX_LITE_PLACES,               ///< it has more places than can be numbered
    slots = REGEX_LITE_SLOTS,                 ///< it has more ends of groups than can be numbered
};

/// Why a call failed: an error with a message. Copying it needs no memory.
class Error : public std::exception {
  public:
    /// Makes the error with the library's text for this kind.
    explicit Error(ErrorKind kind) noexcept : Error(kind, {}, std::nullopt, std::nullopt) {}

    /// Makes an error. An empty message stands for the library's text. The number is that of the
    /// rejected pattern of a list.
    Error(ErrorKind kind, std::string_view message, std::optional<Fault> fault,
          std::optional<std::size_t> number) noexcept
        : kind_(kind), fault_(fault), number_(number) {
        std::array<char, 101> text{};
        if (message.empty()) message = text_of(kind, text);
        const int len = static_cast<int>(std::min(message.size(), text.size()));
        if (number) {
            std::snprintf(message_.data(), message_.size(), "pattern %zu: %.*s", *number, len,
                          message.data());
        } else {
            std::snprintf(message_.data(), message_.size(), "%.*s", len, message.data());
        }
    }

    /// Returns the kind of the error.
    ErrorKind kind() const noexcept { return kind_; }

    /// Returns the message, in English.
    const char *what() const noexcept override { return message_.data(); }

    /// Returns the place of the pattern's first fault. There is none for other kinds of errors, or
    /// if memory ran out while it was searched for.
    const std::optional<Fault> &fault() const noexcept { return fault_; }

    /// Returns the number of the rejected pattern, if it is one of a list.
    const std::optional<std::size_t> &number() const noexcept { return number_; }

  private:
    static std::string_view text_of(ErrorKind kind, std::array<char, 101> &room) noexcept {
        std::size_t len = 0;
        regex_lite_strerror(static_cast<std::uint32_t>(kind),
                            reinterpret_cast<std::uint8_t *>(room.data()), room.size(), &len);
        return {room.data(), std::min(len, room.size())};
    }

    ErrorKind kind_;
    std::optional<Fault> fault_;
    std::optional<std::size_t> number_;
    std::array<char, 140> message_{};
};

namespace detail {

/// Throws the error, or ends the process if there are no exceptions.
[[noreturn]] inline void raise(const Error &error) {
#if defined(__cpp_exceptions)
    if (error.kind() == ErrorKind::out_of_memory) throw std::bad_alloc();
    throw error;
#else
    std::fprintf(stderr, "regex_lite: %s\n", error.what());
    std::abort();
#endif
}

} // namespace detail

/// A value or an error. It doesn't convert to bool, which would be mistaken for the value if that
/// is a bool or an optional.
template <class T> class [[nodiscard]] Expected {
    template <class U>
    static constexpr bool is_value =
        std::is_convertible_v<U, T> && !std::is_same_v<std::decay_t<U>, Expected> &&
        !std::is_same_v<std::decay_t<U>, Error>;

  public:
    /// Makes an Expected with this value.
    template <class U, std::enable_if_t<is_value<U>, int> = 0>
    Expected(U &&value) : state_(std::in_place_index<0>, std::forward<U>(value)) {}

    /// Makes an Expected with this error.
    Expected(const Error &error) : state_(std::in_place_index<1>, error) {}

    /// Returns whether there is a value.
    bool has_value() const noexcept { return state_.index() == 0; }

    /// Returns the value, or throws the error. So do `*` and `->`.
    T &value() & { return *pointer(*this); }
    const T &value() const & { return *pointer(*this); }
    T &&value() && { return std::move(*pointer(*this)); }
    T &operator*() & { return value(); }
    const T &operator*() const & { return value(); }
    T &&operator*() && { return std::move(*this).value(); }
    T *operator->() { return &value(); }
    const T *operator->() const { return &value(); }

    /// Returns the value, or this one in place of an error.
    template <class U> T value_or(U &&other) const & {
        return has_value() ? value() : static_cast<T>(std::forward<U>(other));
    }

    /// Returns the error, or throws std::bad_variant_access if there is a value.
    const Error &error() const { return std::get<1>(state_); }

  private:
    template <class Own> static auto pointer(Own &own) {
        if (auto *value = std::get_if<0>(&own.state_)) return value;
        detail::raise(own.error());
    }

    std::variant<T, Error> state_;
};

/// The settings under which a pattern is built. The default has no flag, and the limits that the
/// Rust crate regex-lite has.
struct Options {
    bool case_insensitive = false;     ///< ASCII letters match in either case: i
    bool multi_line = false;           ///< ^ and $ match at every line: m
    bool dot_matches_new_line = false; ///< . matches every character: s
    bool crlf = false;                 ///< a carriage return ends a line as well: R
    bool swap_greed = false;           ///< greedy and lazy operators are swapped: U
    bool ignore_whitespace = false;    ///< white space and comments are ignored: x
    std::uint32_t nest_limit = 50;     ///< how deeply the pattern may nest
    std::size_t size_limit = 10 << 20; ///< how large it may become, in bytes, approximately
};

namespace detail {

template <class T> struct IsString : std::false_type {};
template <class Traits, class Allocator>
struct IsString<std::basic_string<char, Traits, Allocator>> : std::true_type {};

/// Whether an argument of this deduced type is a string that doesn't outlive the call.
template <class T>
inline constexpr bool is_temporary_string =
    !std::is_reference_v<T> && IsString<std::remove_cv_t<T>>::value;

} // namespace detail

/// A text that a result refers to: anything that converts to std::string_view, except a temporary
/// std::string, which would be gone before the result is used.
class Text {
  public:
    template <class T, std::enable_if_t<std::is_convertible_v<T, std::string_view> &&
                                            !detail::is_temporary_string<T>,
                                        int> = 0>
    Text(T &&text) : view_(std::forward<T>(text)) {}

    template <class T, std::enable_if_t<detail::is_temporary_string<T>, int> = 0>
    Text(T &&) = delete;

    /// Returns the text.
    std::string_view view() const noexcept { return view_; }

  private:
    std::string_view view_;
};

/// A pattern of a list, with its settings.
struct ListPattern {
    template <class T, std::enable_if_t<std::is_convertible_v<T, std::string_view>, int> = 0>
    ListPattern(T &&pattern, const Options &settings = {})
        : text(std::string_view(std::forward<T>(pattern))), options(settings) {}

    std::string text;
    Options options;
};

/// A literal replacement: a $ in it is a $.
struct NoExpand {
    std::string_view text;
};

/// A match: a part of the text. Offsets count bytes.
class Match {
  public:
    /// Makes the empty match of an empty text.
    Match() noexcept = default;

    /// Makes the part of a text from one offset to another; they are in order and within the text.
    Match(std::string_view text, std::size_t start, std::size_t end) noexcept
        : text_(text.data()), start_(start), end_(end) {}

    /// Returns the offset of the first byte.
    std::size_t start() const noexcept { return start_; }

    /// Returns the offset after the last byte.
    std::size_t end() const noexcept { return end_; }

    /// Returns the number of bytes.
    std::size_t size() const noexcept { return end_ - start_; }

    /// Returns whether the match is empty.
    bool empty() const noexcept { return start_ == end_; }

    /// Returns the part of the text that matched.
    std::string_view view() const noexcept { return {text_ + start_, size()}; }
    operator std::string_view() const noexcept { return view(); }

    /// Whether two matches have the same offsets and the same bytes.
    friend bool operator==(const Match &a, const Match &b) noexcept {
        return a.start_ == b.start_ && a.view() == b.view();
    }
    friend bool operator!=(const Match &a, const Match &b) noexcept { return !(a == b); }

  private:
    const char *text_ = "";
    std::size_t start_ = 0;
    std::size_t end_ = 0;
};

/// A match of a list, or the groups of one, with the number of its pattern.
template <class T> class Numbered : public T {
  public:
    Numbered() = default;
    Numbered(std::size_t number, T found) : T(std::move(found)), number_(number) {}

    /// Returns the number of the pattern, from 0 on.
    std::size_t number() const noexcept { return number_; }

    /// Whether two are equal and of the same pattern.
    friend bool operator==(const Numbered &a, const Numbered &b) noexcept {
        return a.number_ == b.number_ && static_cast<const T &>(a) == static_cast<const T &>(b);
    }
    friend bool operator!=(const Numbered &a, const Numbered &b) noexcept { return !(a == b); }

  private:
    std::size_t number_ = 0;
};

namespace detail {

/// Returns what `run` returns, or an error if a container can't allocate memory.
template <class Run> auto attempt(Run run) -> decltype(run()) {
#if defined(__cpp_exceptions)
    try {
        return run();
    } catch (const std::bad_alloc &) {
        return Error(ErrorKind::out_of_memory);
    }
#else
    return run();
#endif
}

/// Returns whether an answer of the library is yes, or why the call failed.
inline Expected<bool> answered(std::uint32_t answer) {
    if (answer == REGEX_LITE_YES || answer == REGEX_LITE_NO) return answer == REGEX_LITE_YES;
    return Error(static_cast<ErrorKind>(answer));
}

/// Returns the bytes of a text. The pointer is null for a default-constructed view, which a call
/// may take.
inline const std::uint8_t *bytes(std::string_view text) noexcept {
    return reinterpret_cast<const std::uint8_t *>(text.data());
}

/// Returns the bytes of a string to write to.
inline std::uint8_t *bytes(std::string &room) noexcept {
    return reinterpret_cast<std::uint8_t *>(room.data());
}

inline regex_lite_options raw(const Options &own) noexcept {
    return {own.case_insensitive, own.multi_line, own.dot_matches_new_line, own.crlf,
            own.swap_greed, own.ignore_whitespace, own.nest_limit, own.size_limit};
}

/// Returns the text that `call` writes to the buffer that it is lent, if there is one. `call` takes
/// the bytes, their number, and where to write the length of the text.
template <class Call> Expected<std::optional<std::string>> written(std::size_t first, Call call) {
    return attempt([&]() -> Expected<std::optional<std::string>> {
        std::string room(first, '\0');
        std::size_t len = 0;
        std::uint32_t answer = call(bytes(room), room.size(), &len);
        if (answer == REGEX_LITE_NO_ROOM) {
            room.resize(len);
            answer = call(bytes(room), room.size(), &len);
        }
        const Expected<bool> is_there = answered(answer);
        if (!is_there.has_value()) return is_there.error();
        if (!*is_there) return std::nullopt;
        room.resize(len);
        return room;
    });
}

/// A lock that does nothing, for a handle that only one thread has.
struct NoMutex {
    void lock() noexcept {}
    void unlock() noexcept {}
};

/// A handle of C, which is never copied or moved, under a lock for each call.
template <class Held, class Mutex> class Handle {
  public:
    Handle() = default;
    Handle(const Handle &) = delete;
    Handle &operator=(const Handle &) = delete;
    ~Handle() { Held::release(&raw_); }

    /// Returns what the function returns for the handle and these arguments.
    template <class Call, class... Arguments> auto call(Call function, Arguments... arguments) {
        const std::lock_guard<Mutex> lock(mutex_);
        return function(&raw_, arguments...);
    }

  private:
    Mutex mutex_;
    typename Held::Raw raw_{nullptr};
};

/// The greatest length of an error message, in bytes.
using Message = std::array<std::uint8_t, 100>;

/// Returns the place of the first fault of a pattern, if there is one and memory suffices.
inline std::optional<Fault> fault_in(std::string_view pattern, const Options &options) {
    const regex_lite_options own = raw(options);
    Fault fault{};
    const std::uint32_t answer = regex_lite_fault_at(bytes(pattern), pattern.size(), &own, &fault);
    return answer == REGEX_LITE_YES ? std::optional(fault) : std::nullopt;
}

/// Makes the error for a pattern that is rejected. It has this number if it is one of a list.
inline Error refusal(std::uint32_t answer, std::string_view message, std::string_view pattern,
                     const Options &options, std::optional<std::size_t> number = {}) {
    const bool is_syntax = answer == REGEX_LITE_SYNTAX;
    return Error(static_cast<ErrorKind>(answer), message,
                 is_syntax ? fault_in(pattern, options) : std::nullopt, number);
}

inline std::string_view view(const Message &message, std::size_t len) noexcept {
    return {reinterpret_cast<const char *>(message.data()), std::min(len, message.size())};
}

/// A handle for one pattern.
struct Single {
    using Raw = regex_lite;
    static constexpr auto release = regex_lite_free;
};

/// Builds the regex of a pattern, or returns the error if it is rejected.
template <class Held, class Mutex>
std::optional<Error> build(Handle<Held, Mutex> &handle, std::string_view pattern,
                           const Options &options) {
    const regex_lite_options own = raw(options);
    Message message;
    std::size_t len = 0;
    const std::uint32_t answer = handle.call(regex_lite_new, bytes(pattern), pattern.size(), &own,
                                             message.data(), message.size(), &len);
    if (answer == REGEX_LITE_YES) return std::nullopt;
    return refusal(answer, view(message, len), pattern, options);
}

/// The groups of a pattern, including the whole match.
struct Groups {
    std::vector<std::string> names;   ///< by index: empty for a group that has none
    std::vector<std::size_t> by_name; ///< the indices of those with names, in the names' order
    std::size_t at_least = 0;         ///< the least number that take part; 0 if not known

    /// Reads the groups from the handle of a regex.
    template <class Held, class Mutex> explicit Groups(Handle<Held, Mutex> &handle) {
        constexpr std::size_t first = 15; // a string of this size takes no memory of its own
        names.resize(handle.call(regex_lite_groups));
        for (std::size_t index = 1; index < names.size(); index++) {
            auto name = written(first, [&](std::uint8_t *room, std::size_t len, std::size_t *told) {
                return handle.call(regex_lite_group_name, index, room, len, told);
            });
            if (!name.value()) continue;
            names[index] = **std::move(name);
            by_name.push_back(index);
        }
        std::sort(by_name.begin(), by_name.end(),
                  [&](std::size_t a, std::size_t b) { return names[a] < names[b]; });
        at_least = handle.call(regex_lite_static_groups);
    }

    /// Returns the index of the group with this name.
    std::optional<std::size_t> index_of(std::string_view name) const {
        const auto found = std::lower_bound(
            by_name.begin(), by_name.end(), name,
            [&](std::size_t index, std::string_view sought) { return names[index] < sought; });
        if (found == by_name.end() || names[*found] != name) return std::nullopt;
        return *found;
    }
};

/// A pattern with its settings, which matches share with the regex or the list that found them.
class Pattern {
  public:
    Pattern(std::string_view pattern, const Options &settings)
        : text(pattern), options(settings) {}
    Pattern(const Pattern &) = delete;
    Pattern &operator=(const Pattern &) = delete;
    ~Pattern() { delete groups_.load(); }

    const std::string text;
    const Options options;

    /// Returns the groups. If they aren't known yet, the regex is built to find them.
    const Groups &groups() const {
        if (const Groups *known = groups_.load(std::memory_order_acquire)) return *known;
        Handle<Single, NoMutex> handle;
        if (const auto refused = build(handle, text, options)) raise(*refused);
        return read(handle);
    }

    /// Returns the groups, which are read from the handle of the pattern's regex.
    template <class Held, class Mutex> const Groups &read(Handle<Held, Mutex> &handle) const {
        auto own = std::make_unique<const Groups>(handle);
        const Groups *known = nullptr;
        // If several threads read them, the first one's result is kept.
        if (groups_.compare_exchange_strong(known, own.get(), std::memory_order_acq_rel))
            return *own.release();
        return *known;
    }

  private:
    mutable std::atomic<const Groups *> groups_{nullptr};
};

using SharedPattern = std::shared_ptr<const Pattern>;

struct One;
struct Many;

} // namespace detail

/// The groups of a match. Group 0 is the whole match, so it always took part.
///
/// The groups of a match of a RegexList are known by their indices. The first call that needs their
/// names builds the pattern by itself, once for all its matches, and may throw std::bad_alloc.
/// RegexList::load_names does it beforehand.
class Captures {
  public:
    class iterator;

    /// Makes the groups of the empty match of an empty text.
    Captures() = default;

    /// Returns the whole match.
    Match whole() const noexcept { return get(0).value_or(Match()); }

    /// Returns the group with this index, if there is one and it took part.
    std::optional<Match> get(std::size_t index) const noexcept {
        if (index >= spans_.size() || !spans_[index].is_there) return std::nullopt;
        return Match(text_, spans_[index].start, spans_[index].end);
    }

    /// Returns the group with this name, if there is one and it took part.
    std::optional<Match> name(std::string_view name) const {
        const std::optional<std::size_t> index = index_of(name);
        return index ? get(*index) : std::nullopt;
    }

    /// Returns the text of the group with this index or this name, which is empty if the group took
    /// no part. If the pattern has no such group, it throws an Error of the kind no_group.
    std::string_view operator[](std::size_t index) const {
        if (index >= size()) detail::raise(Error(ErrorKind::no_group));
        return get(index).value_or(Match());
    }
    std::string_view operator[](std::string_view name) const {
        const std::optional<std::size_t> index = index_of(name);
        if (!index) {
            detail::raise(Error(ErrorKind::no_group, "there is no group with this name",
                                std::nullopt, std::nullopt));
        }
        return get(*index).value_or(Match());
    }

    /// Returns the number of groups of the pattern, including the whole match.
    std::size_t size() const noexcept { return spans_.size(); }

    /// All groups by index, beginning with the whole match, each a std::optional<Match>.
    iterator begin() const noexcept;
    iterator end() const noexcept;

  private:
    friend struct detail::One;

    std::optional<std::size_t> index_of(std::string_view name) const {
        return pattern_ ? pattern_->groups().index_of(name) : std::nullopt;
    }

    /// Replaces these groups by those of another match, and reuses their memory.
    void set(std::string_view text, const regex_lite_span *first, std::size_t count,
             const detail::SharedPattern &pattern) {
        spans_.assign(first, first + count);
        text_ = text;
        if (pattern_ != pattern) pattern_ = pattern;
    }

    std::string_view text_;
    std::vector<regex_lite_span> spans_;
    detail::SharedPattern pattern_;
};

/// An iterator over the groups of a match.
class Captures::iterator {
  public:
    using iterator_category = std::input_iterator_tag;
    using value_type = std::optional<Match>;
    using difference_type = std::ptrdiff_t;
    using pointer = void;
    using reference = value_type;

    iterator() noexcept = default;
    iterator(const Captures *captures, std::size_t index) noexcept
        : captures_(captures), index_(index) {}
    value_type operator*() const noexcept { return captures_->get(index_); }
    iterator &operator++() noexcept {
        index_++;
        return *this;
    }
    iterator operator++(int) noexcept { return iterator(captures_, index_++); }
    friend bool operator==(const iterator &a, const iterator &b) noexcept {
        return a.index_ == b.index_;
    }
    friend bool operator!=(const iterator &a, const iterator &b) noexcept { return !(a == b); }

  private:
    const Captures *captures_ = nullptr;
    std::size_t index_ = 0;
};

inline Captures::iterator Captures::begin() const noexcept { return {this, 0}; }
inline Captures::iterator Captures::end() const noexcept { return {this, size()}; }

/// A match of a RegexList.
using ListMatch = Numbered<Match>;

/// The groups of a match of a RegexList.
using ListCaptures = Numbered<Captures>;

namespace detail {

/// A regex, as what a handle holds, with the calls for it.
struct One : Single {
    using Span = regex_lite_span;
    using Match = rxl::Match;
    using Captures = rxl::Captures;
    using Told = std::size_t; // of groups: their number
    static constexpr auto places = regex_lite_places;
    static constexpr auto arrows = regex_lite_arrows;
    static constexpr auto is_match = regex_lite_is_match;
    static constexpr auto is_match_anchored = regex_lite_is_match_anchored;
    static constexpr auto is_full_match = regex_lite_is_full_match;
    static constexpr auto find = regex_lite_find;
    static constexpr auto find_anchored = regex_lite_find_anchored;
    static constexpr auto full_match = regex_lite_full_match;
    static constexpr auto find_counted = regex_lite_find_counted;
    static constexpr auto find_all = regex_lite_find_all;
    static constexpr auto captures = regex_lite_captures;
    static constexpr auto captures_anchored = regex_lite_captures_anchored;
    static constexpr auto full_captures = regex_lite_full_captures;

    static Match match(std::string_view text, const Span &span) noexcept {
        return Match(text, span.start, span.end);
    }

    static regex_lite_list_groups told(std::size_t count) noexcept { return {0, count}; }

    static void set(Captures &into, std::string_view text, const regex_lite_span *first,
                    const regex_lite_list_groups &told, const std::vector<SharedPattern> &all) {
        into.set(text, first, told.count, all[told.number]);
    }

    /// The number of groups of a match, as far as it is known.
    static std::size_t width(const std::vector<SharedPattern> &all) {
        return all[0]->groups().names.size();
    }

    /// Writes the groups of the next matches, their number in each, and the number of matches.
    template <class Own>
    static std::uint32_t captures_all(Own &own, std::string_view text, regex_lite_walk &walk,
                                      std::vector<regex_lite_list_groups> &told,
                                      std::vector<regex_lite_span> &spans, std::size_t &count) {
        const std::uint32_t answer =
            own.call(regex_lite_captures_all, bytes(text), text.size(), &walk, spans.data(),
                     spans.size(), &count);
        std::fill_n(told.begin(), count, regex_lite_list_groups{0, width(own.patterns)});
        return answer;
    }
};

/// A regex, the memory for its searches and a text, which the handle of a searcher holds.
struct Kept : One {
    using Raw = regex_lite_searcher;
    static constexpr auto release = regex_lite_searcher_free;
};

/// Returns a function that has a searcher read a text, and then calls this one for it.
template <class Call> auto reading(Call function) {
    return [function](regex_lite_searcher *raw, const std::uint8_t *text, std::size_t len,
                      auto... rest) {
        const regex_lite_answer answer = regex_lite_searcher_read(raw, text, len);
        return answer == REGEX_LITE_YES ? function(raw, rest...) : answer;
    };
}

/// A list of patterns, as what a handle holds, with the calls for it.
struct Many {
    using Raw = regex_lite_list;
    using Span = regex_lite_list_span;
    using Match = ListMatch;
    using Captures = ListCaptures;
    using Told = regex_lite_list_groups;
    static constexpr auto release = regex_lite_list_free;
    static constexpr auto places = regex_lite_list_places;
    static constexpr auto arrows = regex_lite_list_arrows;
    static constexpr auto is_match = regex_lite_list_is_match;
    static constexpr auto is_match_anchored = regex_lite_list_is_match_anchored;
    static constexpr auto is_full_match = regex_lite_list_is_full_match;
    static constexpr auto find = regex_lite_list_find;
    static constexpr auto find_anchored = regex_lite_list_find_anchored;
    static constexpr auto full_match = regex_lite_list_full_match;
    static constexpr auto find_counted = regex_lite_list_find_counted;
    static constexpr auto find_all = regex_lite_list_find_all;
    static constexpr auto captures = regex_lite_list_captures;
    static constexpr auto captures_anchored = regex_lite_list_captures_anchored;
    static constexpr auto full_captures = regex_lite_list_full_captures;

    static Match match(std::string_view text, const Span &span) noexcept {
        return Match(span.number, rxl::Match(text, span.start, span.end));
    }

    static regex_lite_list_groups told(const Told &own) noexcept { return own; }

    static void set(Captures &into, std::string_view text, const regex_lite_span *first,
                    const regex_lite_list_groups &told, const std::vector<SharedPattern> &all) {
        One::set(into, text, first, told, all);
        into = Captures(told.number, std::move(into));
    }

    /// The assumed number of groups of a match, until one has more.
    static std::size_t width(const std::vector<SharedPattern> &) noexcept { return 4; }

    /// Writes what One::captures_all does. With too little room, `count` is the number of groups of
    /// the next match.
    template <class Own>
    static std::uint32_t captures_all(Own &own, std::string_view text, regex_lite_walk &walk,
                                      std::vector<regex_lite_list_groups> &told,
                                      std::vector<regex_lite_span> &spans, std::size_t &count) {
        return own.call(regex_lite_list_captures_all, bytes(text), text.size(), &walk, told.data(),
                        told.size(), spans.data(), spans.size(), &count);
    }
};

/// A handle with its patterns: a single one for the handle of a regex.
template <class Held, class Mutex = std::mutex> struct Owner : Handle<Held, Mutex> {
    std::vector<SharedPattern> patterns;
};

/// Makes the owner of a pattern's regex.
template <class Mutex>
Expected<std::shared_ptr<Owner<One, Mutex>>> own(std::string_view pattern,
                                                 const Options &options) {
    return attempt([&]() -> Expected<std::shared_ptr<Owner<One, Mutex>>> {
        auto owner = std::make_shared<Owner<One, Mutex>>();
        if (const auto refused = build(*owner, pattern, options)) return *refused;
        auto shared = std::make_shared<const Pattern>(pattern, options);
        shared->read(*owner);
        owner->patterns.push_back(std::move(shared));
        return owner;
    });
}

/// Returns whether there is a match, by this function of the library. A search has a start, unless
/// it is one for a whole match.
template <class Own, class Call, class... Start>
Expected<bool> matched(Own &own, Call function, std::string_view text, Start... start) {
    return answered(own.call(function, bytes(text), text.size(), start...));
}

/// Returns the match that this function of the library writes, as one of this kind.
template <class Held, class Own, class Call, class... Start>
Expected<std::optional<typename Held::Match>> found(Own &own, Call function, std::string_view text,
                                                    Start... start) {
    typename Held::Span span{};
    const Expected<bool> is_there =
        answered(own.call(function, bytes(text), text.size(), start..., &span));
    if (!is_there.has_value()) return is_there.error();
    if (!*is_there) return std::nullopt;
    return Held::match(text, span);
}

/// Room for the groups of one match. If these are few, it needs no memory.
template <class Told> class GroupRoom {
  public:
    /// Makes room for at least this many groups.
    explicit GroupRoom(std::size_t width) {
        if (width > few_.size()) many_.resize(width);
    }

    /// Calls this function of the library for the groups of a match, and returns whether there is
    /// one. If there are more groups than expected, it calls the function again.
    template <class Own, class Call, class... Start>
    Expected<bool> ask(Own &own, Call function, std::string_view text, Start... start) {
        const auto write = [&] {
            return many_.empty() ? own.call(function, bytes(text), text.size(), start...,
                                            few_.data(), few_.size(), &told_)
                                 : own.call(function, bytes(text), text.size(), start...,
                                            many_.data(), many_.size(), &told_);
        };
        std::uint32_t answer = write();
        if (answer == REGEX_LITE_NO_ROOM) {
            many_.resize(count(told_));
            answer = write();
        }
        return answered(answer);
    }

    /// Returns the spans of the groups.
    const regex_lite_span *first() const noexcept {
        return many_.empty() ? few_.data() : many_.data();
    }

    /// Returns what the function has written besides the spans.
    const Told &told() const noexcept { return told_; }

  private:
    static std::size_t count(std::size_t told) noexcept { return told; }
    static std::size_t count(const regex_lite_list_groups &told) noexcept { return told.count; }

    std::array<regex_lite_span, 64> few_;
    std::vector<regex_lite_span> many_;
    Told told_{};
};

/// Sets `into` to the groups that this function of the library writes, and returns whether there is
/// a match.
template <class Held, class Mutex, class Call, class... Start>
Expected<bool> captured(Owner<Held, Mutex> &own, typename Held::Captures &into, Call function,
                        std::string_view text, Start... start) {
    return attempt([&]() -> Expected<bool> {
        GroupRoom<typename Held::Told> room(Held::width(own.patterns));
        const Expected<bool> is_there = room.ask(own, function, text, start...);
        if (is_there.has_value() && *is_there)
            Held::set(into, text, room.first(), Held::told(room.told()), own.patterns);
        return is_there;
    });
}

/// The first match in each of many texts, and the memory for it.
class Each {
  public:
    std::vector<std::optional<Match>> found;

    /// Searches the texts, and returns whether they were searched.
    template <class Mutex, class Texts>
    Expected<bool> search(Owner<One, Mutex> &own, Texts &texts) {
        found.clear();
        joined_.clear();
        views_.clear();
        lens_.clear();
        for (auto &&text : texts) {
            views_.push_back(Text(std::forward<decltype(text)>(text)).view());
            joined_ += views_.back();
            lens_.push_back(views_.back().size());
        }
        spans_.resize(lens_.size());
        std::uint32_t answer =
            own.call(regex_lite_find_each, bytes(joined_), joined_.size(), lens_.data(),
                     lens_.size(), spans_.data(), spans_.size());
        // The lengths add up, so a bad offset means that a text ends inside a character.
        if (answer == REGEX_LITE_BAD_OFFSET) answer = REGEX_LITE_NOT_TEXT;
        const Expected<bool> is_done = answered(answer);
        if (!is_done.has_value()) return is_done;
        for (std::size_t k = 0; k < spans_.size(); k++) {
            found.push_back(spans_[k].is_there ? std::optional(One::match(views_[k], spans_[k]))
                                               : std::nullopt);
        }
        return true;
    }

  private:
    std::string joined_;
    std::vector<std::string_view> views_;
    std::vector<std::size_t> lens_;
    std::vector<regex_lite_span> spans_;
};

/// Whether the texts of a range outlive a call: those of a temporary range that owns strings don't.
template <class Texts>
inline constexpr bool are_lasting =
    std::is_lvalue_reference_v<Texts> ||
    !IsString<std::decay_t<decltype(*std::begin(std::declval<Texts &>()))>>::value;

/// The number of spans of the next batch.
///
/// Each call of the library reads the whole text, so a loop with batches of a fixed size would take
/// quadratic time. Each batch is four times as large as the one before, up to the size of the text.
/// So a loop takes time in proportion to the text and to its matches, and no more memory than the
/// text has.
class Capacity {
  public:
    /// Makes this for matches with `width` spans each, of which at most `wanted` are wanted.
    Capacity(std::string_view text, std::size_t width, std::size_t wanted) noexcept {
        const std::size_t limit = std::numeric_limits<std::size_t>::max() / width;
        most_ = std::max<std::size_t>(4096, text.size() / sizeof(regex_lite_span));
        most_ = std::max(width, std::min(most_, std::min(wanted, limit) * width));
        next_ = std::min(most_, 16 * width);
    }

    /// Returns the number of spans of the next batch, and makes the one after it larger.
    std::size_t grow() noexcept {
        const std::size_t next = next_;
        next_ = next > most_ / 4 ? most_ : next * 4;
        return next;
    }

  private:
    std::size_t most_;
    std::size_t next_;
};

/// Returns whether a match was fetched that ends here, so that none follows.
inline bool ends_at(const regex_lite_walk &walk, std::size_t end) noexcept {
    return walk.is_begun && walk.end == end;
}

/// The matches in a text, which are fetched in batches.
template <class Held> class MatchSource {
  public:
    using Item = typename Held::Match;

    /// Goes over all matches of the text, of which no more than `wanted` are wanted.
    MatchSource(std::shared_ptr<Owner<Held>> own, std::string_view text, std::size_t wanted)
        : own_(std::move(own)), text_(text), capacity_(text, 1, wanted) {}

    /// Goes on to the next match, and returns whether there is one. After an error there is none.
    Expected<bool> advance() {
        if (next_ == count_) {
            const Expected<bool> is_there = fetch();
            if (!is_there.has_value() || !*is_there) return is_there;
        }
        item_ = Held::match(text_, spans_[next_++]);
        return true;
    }

    /// Returns the match.
    const Item &item() const noexcept { return item_; }

    /// Returns the text.
    std::string_view text() const noexcept { return text_; }

  private:
    Expected<bool> fetch() {
        next_ = count_ = 0;
        if (std::exchange(is_over_, true)) return false;
        return attempt([&]() -> Expected<bool> {
            const std::size_t room = capacity_.grow();
            spans_.clear(); // so that they aren't copied
            spans_.resize(room);
            const Expected<bool> is_there =
                answered(own_->call(Held::find_all, bytes(text_), text_.size(), &walk_,
                                    spans_.data(), room, &count_));
            // The library writes as many matches as there is room for, so if there are fewer, these
            // are the last.
            is_over_ = count_ < room || ends_at(walk_, text_.size());
            return is_there;
        });
    }

    std::shared_ptr<Owner<Held>> own_;
    std::string_view text_;
    Capacity capacity_;
    regex_lite_walk walk_ = REGEX_LITE_START;
    std::vector<typename Held::Span> spans_;
    std::size_t next_ = 0;
    std::size_t count_ = 0;
    bool is_over_ = false;
    Item item_;
};

/// The groups of the matches in a text, which are fetched in batches.
template <class Held> class GroupSource {
  public:
    using Item = typename Held::Captures;

    /// Goes over all matches of the text, of which no more than `wanted` are wanted.
    GroupSource(std::shared_ptr<Owner<Held>> own, std::string_view text, std::size_t wanted)
        : own_(std::move(own)), text_(text), width_(Held::width(own_->patterns)),
          capacity_(text, width_, wanted) {}

    /// Goes on to the next match, and returns whether there is one. After an error there is none.
    Expected<bool> advance() {
        const Expected<bool> is_there = attempt([&] { return step(); });
        if (!is_there.has_value()) {
            next_ = count_ = 0;
            is_over_ = true;
        }
        return is_there;
    }

    /// Returns the groups of the match.
    const Item &item() const noexcept { return item_; }

  private:
    Expected<bool> step() {
        if (next_ == count_) {
            const Expected<bool> is_there = fetch();
            if (!is_there.has_value() || !*is_there) return is_there;
        }
        const regex_lite_list_groups &told = told_[next_++];
        Held::set(item_, text_, spans_.data() + taken_, told, own_->patterns);
        taken_ += told.count;
        return true;
    }

    Expected<bool> fetch() {
        next_ = count_ = taken_ = 0;
        if (std::exchange(is_over_, true)) return false;
        const std::size_t room = capacity_.grow();
        told_.clear(); // so that they aren't copied
        told_.resize(room / width_);
        spans_.clear();
        spans_.resize(room);
        std::uint32_t answer = Held::captures_all(*own_, text_, walk_, told_, spans_, count_);
        if (answer == REGEX_LITE_NO_ROOM) {
            spans_.resize(count_);
            answer = Held::captures_all(*own_, text_, walk_, told_, spans_, count_);
        }
        // If memory runs out after some matches, these come first.
        if (answer == REGEX_LITE_OUT_OF_MEMORY && count_ > 0) answer = REGEX_LITE_YES;
        const Expected<bool> is_there = answered(answer);
        // If memory ran out, others follow although there are fewer than there is room for.
        is_over_ = count_ == 0 || ends_at(walk_, text_.size());
        return is_there;
    }

    std::shared_ptr<Owner<Held>> own_;
    std::string_view text_;
    std::size_t width_;
    Capacity capacity_;
    regex_lite_walk walk_ = REGEX_LITE_START;
    std::vector<regex_lite_list_groups> told_;
    std::vector<regex_lite_span> spans_;
    std::size_t next_ = 0;
    std::size_t count_ = 0;
    std::size_t taken_ = 0;
    bool is_over_ = false;
    Item item_;
};

/// The pieces before, between and after the matches in a text: at most some of them, the last of
/// which is the rest of the text.
class PieceSource {
  public:
    using Item = std::string_view;

    PieceSource(std::shared_ptr<Owner<One>> own, std::string_view text, std::size_t limit)
        : matches_(std::move(own), text, limit == 0 ? 0 : limit - 1), limit_(limit) {}

    /// Goes on to the next piece, and returns whether there is one. After an error there is none.
    Expected<bool> advance() {
        if (!rest_ || limit_ == 0) return false;
        const std::size_t from = *std::exchange(rest_, std::nullopt);
        std::size_t end = matches_.text().size();
        if (--limit_ > 0) {
            const Expected<bool> is_there = matches_.advance();
            if (!is_there.has_value()) return is_there;
            if (*is_there) {
                end = matches_.item().start();
                rest_ = matches_.item().end();
            }
        }
        item_ = matches_.text().substr(from, end - from);
        return true;
    }

    /// Returns the piece.
    const Item &item() const noexcept { return item_; }

  private:
    MatchSource<One> matches_;
    std::size_t limit_;
    std::optional<std::size_t> rest_ = 0; // where the last piece starts, until it is returned
    Item item_;
};

/// The items of a source, which throws an error.
template <class From> class Thrown {
  public:
    using Source = From;
    using Item = typename Source::Item;
    explicit Thrown(Source source) : source_(std::move(source)) {}
    bool advance() { return source_.advance().value(); }
    const Item &item() const noexcept { return source_.item(); }

  private:
    Source source_;
};

/// The items of a source, whose last item may be an error.
template <class From> class Tried {
  public:
    using Source = From;
    using Item = Expected<typename Source::Item>;
    explicit Tried(Source source) : source_(std::move(source)) {}
    bool advance() {
        if (!item_.has_value()) return false;
        const Expected<bool> is_there = source_.advance();
        if (is_there.has_value() && !*is_there) return false;
        item_ = attempt([&]() -> Item {
            if (!is_there.has_value()) return is_there.error();
            return source_.item();
        });
        return true;
    }
    const Item &item() const noexcept { return item_; }

  private:
    Source source_;
    Item item_{typename Source::Item()};
};

} // namespace detail

/// A range for a single loop, from left to right: `for (const auto &item : range)`. An item is lent
/// until the next step; a copy of it may be kept.
template <class Items> class Range {
  public:
    using value_type = typename Items::Item;

    /// An iterator over the items of a range, which must not be moved meanwhile. The end iterator
    /// is blank.
    class iterator {
      public:
        using iterator_category = std::input_iterator_tag;
        using value_type = typename Items::Item;
        using difference_type = std::ptrdiff_t;
        using pointer = const value_type *;
        using reference = const value_type &;

        /// A copy of an item, as `*it++` needs it.
        struct Copied {
            value_type item;
            const value_type &operator*() const noexcept { return item; }
        };

        iterator() noexcept = default;
        reference operator*() const noexcept { return range_->items_.item(); }
        pointer operator->() const noexcept { return &range_->items_.item(); }
        iterator &operator++() {
            if (!range_->items_.advance()) range_ = nullptr;
            return *this;
        }
        Copied operator++(int) {
            Copied before{**this};
            ++*this;
            return before;
        }
        friend bool operator==(const iterator &a, const iterator &b) noexcept {
            return a.range_ == b.range_;
        }
        friend bool operator!=(const iterator &a, const iterator &b) noexcept { return !(a == b); }

      private:
        friend class Range;
        explicit iterator(Range *range) noexcept : range_(range) {}
        Range *range_ = nullptr;
    };

    using Source = typename Items::Source;
    explicit Range(Source source) : items_(std::move(source)) {}

    /// Goes on to the next item, which is the first one in the first call. A temporary range has no
    /// begin, since it would be gone before its iterator is used.
    iterator begin() & { return ++iterator(this); }
    iterator end() & noexcept { return iterator(); }

  private:
    Items items_;
};

/// A match, if there is one, and the cost of the search for it.
template <class T> struct Counted {
    std::optional<T> found;
    Cost cost;
};

/// The searches that a Regex and a RegexList both have. A call whose name ends in `_at` begins at
/// an offset. There too the pattern's looks see the whole text: ^ matches at the offset only if
/// that is 0. Each call reads the whole text once to check that it is UTF-8, so for all matches in
/// a text use find_iter or captures_iter.
///
/// A call may throw an Error of the kind not_text or bad_offset, or std::bad_alloc. Its try_ form
/// returns that error.
template <class Held> class Searches {
  public:
    using Match = typename Held::Match;       ///< for a list, with the number of the pattern
    using Captures = typename Held::Captures; ///< likewise
    using Matches = Range<detail::Thrown<detail::MatchSource<Held>>>;
    using TryMatches = Range<detail::Tried<detail::MatchSource<Held>>>;
    using CaptureMatches = Range<detail::Thrown<detail::GroupSource<Held>>>;
    using TryCaptureMatches = Range<detail::Tried<detail::GroupSource<Held>>>;

    /// Returns whether there is a match.
    bool is_match(std::string_view text) const { return is_match_at(text, 0); }
    bool is_match_at(std::string_view text, std::size_t start) const {
        return try_is_match_at(text, start).value();
    }
    Expected<bool> try_is_match(std::string_view text) const { return try_is_match_at(text, 0); }
    Expected<bool> try_is_match_at(std::string_view text, std::size_t start) const {
        return detail::matched(*own_, Held::is_match, text, start);
    }

    /// Returns the match that starts first and, of those that start there, the one that the pattern
    /// prefers. For a list it is that of the pattern with the lowest number.
    std::optional<Match> find(Text text) const { return find_at(text, 0); }
    std::optional<Match> find_at(Text text, std::size_t start) const {
        return try_find_at(text, start).value();
    }
    Expected<std::optional<Match>> try_find(Text text) const { return try_find_at(text, 0); }
    Expected<std::optional<Match>> try_find_at(Text text, std::size_t start) const {
        return detail::found<Held>(*own_, Held::find, text.view(), start);
    }

    /// Returns the groups of the match that `find` returns.
    std::optional<Captures> captures(Text text) const { return captures_at(text, 0); }
    std::optional<Captures> captures_at(Text text, std::size_t start) const {
        return try_captures_at(text, start).value();
    }
    Expected<std::optional<Captures>> try_captures(Text text) const {
        return try_captures_at(text, 0);
    }
    Expected<std::optional<Captures>> try_captures_at(Text text, std::size_t start) const {
        return captured(Held::captures, text, start);
    }

    /// Returns whether a match starts at the offset itself. The search stops as soon as none can.
    bool is_match_anchored_at(std::string_view text, std::size_t start) const {
        return try_is_match_anchored_at(text, start).value();
    }
    Expected<bool> try_is_match_anchored_at(std::string_view text, std::size_t start) const {
        return detail::matched(*own_, Held::is_match_anchored, text, start);
    }

    /// Returns the match that starts at the offset itself.
    std::optional<Match> find_anchored_at(Text text, std::size_t start) const {
        return try_find_anchored_at(text, start).value();
    }
    Expected<std::optional<Match>> try_find_anchored_at(Text text, std::size_t start) const {
        return detail::found<Held>(*own_, Held::find_anchored, text.view(), start);
    }

    /// Returns the groups of the match that starts at the offset itself.
    std::optional<Captures> captures_anchored_at(Text text, std::size_t start) const {
        return try_captures_anchored_at(text, start).value();
    }
    Expected<std::optional<Captures>> try_captures_anchored_at(Text text, std::size_t start) const {
        return captured(Held::captures_anchored, text, start);
    }

    /// Returns whether the pattern matches the whole text, even if it prefers a shorter match.
    bool is_full_match(std::string_view text) const { return try_is_full_match(text).value(); }
    Expected<bool> try_is_full_match(std::string_view text) const {
        return detail::matched(*own_, Held::is_full_match, text);
    }

    /// Returns the match of the whole text.
    std::optional<Match> full_match(Text text) const { return try_full_match(text).value(); }
    Expected<std::optional<Match>> try_full_match(Text text) const {
        return detail::found<Held>(*own_, Held::full_match, text.view());
    }

    /// Returns the groups of the match of the whole text, as the pattern prefers them.
    std::optional<Captures> full_captures(Text text) const {
        return try_full_captures(text).value();
    }
    Expected<std::optional<Captures>> try_full_captures(Text text) const {
        return captured(Held::full_captures, text);
    }

    /// Returns what `find` returns, and the cost of the search. It tries at most (arrows +
    /// patterns) * (characters + 1) places.
    Counted<Match> find_counted(Text text) const { return find_counted_at(text, 0); }
    Counted<Match> find_counted_at(Text text, std::size_t start) const {
        return try_find_counted_at(text, start).value();
    }
    Expected<Counted<Match>> try_find_counted(Text text) const {
        return try_find_counted_at(text, 0);
    }
    Expected<Counted<Match>> try_find_counted_at(Text text, std::size_t start) const {
        Cost cost{};
        typename Held::Span span{};
        const std::string_view own = text.view();
        const Expected<bool> is_there = detail::answered(own_->call(
            Held::find_counted, detail::bytes(own), own.size(), start, &span, &cost));
        if (!is_there.has_value()) return is_there.error();
        if (!*is_there) return Counted<Match>{std::nullopt, cost};
        return Counted<Match>{Held::match(own, span), cost};
    }

    /// Returns all matches, from left to right. No two overlap: a search continues where the last
    /// match ended, and no empty match comes directly after another match.
    ///
    /// They are fetched 16 at a time, and then four times as many as before. A step may throw what
    /// a search throws, after all matches that were found before. In the try_ form each item is an
    /// Expected, and an error is the last item.
    Matches find_iter(Text text) const { return over<Matches>(text, all); }
    TryMatches try_find_iter(Text text) const { return over<TryMatches>(text, all); }

    /// Returns the groups of all matches that `find_iter` returns.
    CaptureMatches captures_iter(Text text) const { return over<CaptureMatches>(text, all); }
    TryCaptureMatches try_captures_iter(Text text) const {
        return over<TryCaptureMatches>(text, all);
    }

    /// Returns the number of places of the patterns: the states of their NFAs.
    std::size_t places() const { return own_->call(Held::places); }

    /// Returns the number of arrows of the patterns: the transitions of their NFAs.
    std::size_t arrows() const { return own_->call(Held::arrows); }

  protected:
    using Own = std::shared_ptr<detail::Owner<Held>>;

    explicit Searches(Own own) noexcept : own_(std::move(own)) {}

    // Copied instead of moved, so that no object is left empty.
    Searches(const Searches &) noexcept = default;
    Searches &operator=(const Searches &) noexcept = default;
    ~Searches() = default;

    template <class Call, class... Start>
    Expected<std::optional<Captures>> captured(Call function, Text text, Start... start) const {
        Captures own;
        const Expected<bool> is_there =
            detail::captured(*own_, own, function, text.view(), start...);
        if (!is_there.has_value()) return is_there.error();
        if (!*is_there) return std::nullopt;
        return own;
    }

    /// Returns a range over a text, of which at most `wanted` items are wanted.
    template <class Over> Over over(Text text, std::size_t wanted) const {
        return Over(typename Over::Source(own_, text.view(), wanted));
    }

    static constexpr std::size_t all = std::numeric_limits<std::size_t>::max();

    Own own_;
};

/// A compiled pattern. Copies share it.
class Regex : public Searches<detail::One> {
  public:
    using Split = Range<detail::Thrown<detail::PieceSource>>;
    using TrySplit = Range<detail::Tried<detail::PieceSource>>;

    /// Compiles a pattern. If it is rejected, throws an Error of one of the kinds from `syntax` on,
    /// or `not_text`.
    explicit Regex(std::string_view pattern, const Options &options = {})
        : Regex(try_build(pattern, options).value()) {}
    static Expected<Regex> try_build(std::string_view pattern, const Options &options = {}) {
        auto own = detail::own<std::mutex>(pattern, options);
        if (!own.has_value()) return own.error();
        return Regex(*std::move(own));
    }

    /// Builds a regex of the same pattern and settings, for another thread.
    Regex clone() const { return try_clone().value(); }
    Expected<Regex> try_clone() const { return try_build(known().text, known().options); }

    /// Returns the pattern.
    std::string_view pattern() const & noexcept { return known().text; }
    std::string_view pattern() const && = delete;

    /// Returns the number of groups of a match, including the whole match.
    std::size_t captures_len() const { return known().groups().names.size(); }

    /// Returns the least number of groups that take part in every match, including the whole match,
    /// if it is known.
    std::optional<std::size_t> static_captures_len() const {
        const std::size_t len = known().groups().at_least;
        return len == 0 ? std::nullopt : std::optional(len);
    }

    /// Returns the names of the groups by index, beginning with the whole match: empty for a group
    /// that has none.
    const std::vector<std::string> &capture_names() const & { return known().groups().names; }
    const std::vector<std::string> &capture_names() const && = delete;

    /// Returns whether the pattern may match the empty text if its looks, such as ^, are assumed to
    /// hold. If this is false, no match is empty.
    bool may_be_empty() const { return own_->call(regex_lite_may_be_empty) == REGEX_LITE_YES; }

    /// Returns the least offset at which a match ends.
    std::optional<std::size_t> shortest_match(std::string_view text) const {
        return shortest_match_at(text, 0);
    }
    std::optional<std::size_t> shortest_match_at(std::string_view text, std::size_t start) const {
        return try_shortest_match_at(text, start).value();
    }
    Expected<std::optional<std::size_t>> try_shortest_match(std::string_view text) const {
        return try_shortest_match_at(text, 0);
    }
    Expected<std::optional<std::size_t>> try_shortest_match_at(std::string_view text,
                                                               std::size_t start) const {
        std::size_t end = 0;
        const Expected<bool> is_there = detail::answered(own_->call(
            regex_lite_shortest, detail::bytes(text), text.size(), start, &end));
        if (!is_there.has_value()) return is_there.error();
        return *is_there ? std::optional(end) : std::nullopt;
    }

    /// Returns the pieces before the first match, between two consecutive matches, and after the
    /// last one: one more piece than matches. A piece may be empty.
    Split split(Text text) const { return over<Split>(text, all); }
    TrySplit try_split(Text text) const { return over<TrySplit>(text, all); }

    /// Returns at most `limit` pieces, the last of which is the rest of the text. With a limit of 0
    /// there are none.
    Split splitn(Text text, std::size_t limit) const { return over<Split>(text, limit); }
    TrySplit try_splitn(Text text, std::size_t limit) const { return over<TrySplit>(text, limit); }

    /// Returns the text with its first match replaced, with all of them replaced, or with the first
    /// `limit` of them replaced, where a limit of 0 means all. A match is replaced by
    ///
    /// - a template, which converts to std::string_view: $1, $name, ${1} and ${name} give what
    ///   this group matched, or nothing, and $$ gives a $. Without braces a name is as long as
    ///   possible;
    /// - a literal text, in a NoExpand; or
    /// - what a callable returns for `const Captures &`, which converts to std::string_view. It may
    ///   search with the same regex. What it throws passes through each form, except for
    ///   std::bad_alloc, which is an error of the try_ forms.
    template <class Replacer> std::string replace(std::string_view text, Replacer &&by) const {
        return replacen(text, 1, std::forward<Replacer>(by));
    }
    template <class Replacer> std::string replace_all(std::string_view text, Replacer &&by) const {
        return replacen(text, 0, std::forward<Replacer>(by));
    }
    template <class Replacer>
    std::string replacen(std::string_view text, std::size_t limit, Replacer &&by) const {
        return try_replacen(text, limit, std::forward<Replacer>(by)).value();
    }
    template <class Replacer>
    Expected<std::string> try_replace(std::string_view text, Replacer &&by) const {
        return try_replacen(text, 1, std::forward<Replacer>(by));
    }
    template <class Replacer>
    Expected<std::string> try_replace_all(std::string_view text, Replacer &&by) const {
        return try_replacen(text, 0, std::forward<Replacer>(by));
    }
    template <class Replacer>
    Expected<std::string> try_replacen(std::string_view text, std::size_t limit,
                                       Replacer &&by) const {
        return detail::attempt([&]() -> Expected<std::string> {
            if constexpr (std::is_convertible_v<Replacer, std::string_view>) {
                return written_anew(text, by, {limit, false, 0, 0});
            } else if constexpr (std::is_same_v<std::decay_t<Replacer>, NoExpand>) {
                return written_anew(text, by.text, {limit, true, 0, 0});
            } else {
                static_assert(std::is_invocable_v<Replacer &, const Captures &>,
                              "a match is replaced by a template, a NoExpand or a callable");
                return called_for(text, limit, by);
            }
        });
    }

    /// Returns the first match in each of several texts: a range of anything that a Text can be
    /// made of. The texts are copied first, and the searches share the transitions that they cache.
    template <class Texts, std::enable_if_t<detail::are_lasting<Texts>, int> = 0>
    std::vector<std::optional<Match>> find_each(Texts &&texts) const {
        return try_find_each(texts).value();
    }
    template <class Texts, std::enable_if_t<detail::are_lasting<Texts>, int> = 0>
    Expected<std::vector<std::optional<Match>>> try_find_each(Texts &&texts) const {
        return detail::attempt([&]() -> Expected<std::vector<std::optional<Match>>> {
            detail::Each each;
            const Expected<bool> is_done = each.search(*own_, texts);
            if (!is_done.has_value()) return is_done.error();
            return std::move(each.found);
        });
    }
    template <class Texts, std::enable_if_t<!detail::are_lasting<Texts>, int> = 0>
    void find_each(Texts &&) const = delete;
    template <class Texts, std::enable_if_t<!detail::are_lasting<Texts>, int> = 0>
    void try_find_each(Texts &&) const = delete;

  private:
    friend class Searcher;
    explicit Regex(Own own) noexcept : Searches(std::move(own)) {}

    const detail::Pattern &known() const noexcept { return *own_->patterns[0]; }

    /// Returns the text with its matches replaced by the library.
    Expected<std::string> written_anew(std::string_view text, std::string_view by,
                                       regex_lite_replacing how) const {
        // The new text is seldom much longer than the old one. If it is, all matches are found a
        // second time.
        std::string room(text.size() + text.size() / 4 + 64, '\0');
        const auto write = [&] {
            return own_->call(regex_lite_replace, detail::bytes(text), text.size(),
                              detail::bytes(by), by.size(), &how, detail::bytes(room), room.size());
        };
        std::uint32_t answer = write();
        if (answer == REGEX_LITE_NO_ROOM) {
            room.resize(how.len);
            answer = write();
        }
        const Expected<bool> is_written = detail::answered(answer);
        if (!is_written.has_value()) return is_written.error();
        room.resize(how.len);
        return room;
    }

    /// Returns the text with its matches replaced by what the callable returns.
    template <class Replacer>
    Expected<std::string> called_for(std::string_view text, std::size_t limit,
                                     Replacer &by) const {
        const std::size_t wanted = limit == 0 ? all : limit;
        detail::GroupSource<detail::One> source(own_, text, wanted);
        std::string fresh;
        std::size_t rest = 0;
        for (std::size_t done = 0; done < wanted; done++) {
            const Expected<bool> is_there = source.advance();
            if (!is_there.has_value()) return is_there.error();
            if (!*is_there) break;
            const Match whole = source.item().whole();
            fresh.append(text.substr(rest, whole.start() - rest));
            fresh.append(std::string_view(by(source.item())));
            rest = whole.end();
        }
        fresh.append(text.substr(rest));
        return fresh;
    }
};

/// A compiled list of patterns, which are searched for in one pass and numbered from 0 on. Copies
/// share it.
///
/// A search makes one pass over the text for all of them. Of the matches that start first it finds
/// that of the pattern with the lowest number. The list may be empty, and a pattern may occur in it
/// more than once.
class RegexList : public Searches<detail::Many> {
  public:
    /// Compiles the list of these patterns: texts, or ListPatterns with settings of their own. If a
    /// pattern is rejected, throws an Error with its number.
    RegexList(std::initializer_list<ListPattern> patterns)
        : RegexList(try_build(patterns).value()) {}
    template <class Patterns, class = std::enable_if_t<!std::is_same_v<Patterns, RegexList>>>
    explicit RegexList(const Patterns &patterns) : RegexList(try_build(patterns).value()) {}
    static Expected<RegexList> try_build(std::initializer_list<ListPattern> patterns) {
        return try_build<std::initializer_list<ListPattern>>(patterns);
    }
    template <class Patterns> static Expected<RegexList> try_build(const Patterns &patterns) {
        return detail::attempt([&]() -> Expected<RegexList> {
            std::vector<detail::SharedPattern> shared;
            for (const auto &pattern : patterns) {
                const ListPattern own(pattern);
                shared.push_back(std::make_shared<const detail::Pattern>(own.text, own.options));
            }
            return built(std::move(shared));
        });
    }

    /// Builds a list of the same patterns and settings, for another thread.
    RegexList clone() const { return try_clone().value(); }
    Expected<RegexList> try_clone() const {
        return detail::attempt([&] { return built(own_->patterns); });
    }

    /// Returns the number of patterns.
    std::size_t size() const noexcept { return own_->patterns.size(); }

    /// Returns whether there is no pattern.
    bool empty() const noexcept { return size() == 0; }

    /// Returns the pattern with this number, if there is one.
    std::optional<std::string_view> pattern(std::size_t number) const & noexcept {
        if (number >= size()) return std::nullopt;
        return own_->patterns[number]->text;
    }
    std::optional<std::string_view> pattern(std::size_t number) const && = delete;

    /// Compiles each pattern by itself, so that the names of its groups are known. Otherwise that
    /// is done when the groups of a match first need the names.
    void load_names() const { try_load_names().value(); }
    Expected<std::monostate> try_load_names() const {
        return detail::attempt([&]() -> Expected<std::monostate> {
            for (const detail::SharedPattern &pattern : own_->patterns) pattern->groups();
            return std::monostate();
        });
    }

    /// Returns whether each pattern matches from the offset on, by their numbers.
    std::vector<bool> matches(std::string_view text) const { return matches_at(text, 0); }
    std::vector<bool> matches_at(std::string_view text, std::size_t start) const {
        return try_matches_at(text, start).value();
    }
    Expected<std::vector<bool>> try_matches(std::string_view text) const {
        return try_matches_at(text, 0);
    }
    Expected<std::vector<bool>> try_matches_at(std::string_view text, std::size_t start) const {
        return detail::attempt([&]() -> Expected<std::vector<bool>> {
            std::vector<std::uint8_t> matched(size());
            std::size_t count = 0;
            const Expected<bool> is_there = detail::answered(
                own_->call(regex_lite_list_matches, detail::bytes(text), text.size(), start,
                           matched.data(), matched.size(), &count));
            if (!is_there.has_value()) return is_there.error();
            return std::vector<bool>(matched.begin(), matched.end());
        });
    }

    /// Returns whether the pattern with this number may match the empty text, as
    /// Regex::may_be_empty does. This call and those below throw an Error of the kind no_pattern if
    /// the list has no such pattern.
    bool may_be_empty(std::size_t number) const {
        return detail::answered(own_->call(regex_lite_list_may_be_empty, number)).value();
    }

    /// Returns what a search for only the pattern with this number returns, whatever the other
    /// patterns match: a caller that prefers some patterns to others searches for them in that
    /// order.
    bool is_match_of(std::size_t number, std::string_view text) const {
        return is_match_of_at(number, text, 0);
    }
    bool is_match_of_at(std::size_t number, std::string_view text, std::size_t start) const {
        return try_is_match_of_at(number, text, start).value();
    }
    Expected<bool> try_is_match_of(std::size_t number, std::string_view text) const {
        return try_is_match_of_at(number, text, 0);
    }
    Expected<bool> try_is_match_of_at(std::size_t number, std::string_view text,
                                      std::size_t start) const {
        const auto is_match = [number](regex_lite_list *raw, auto... rest) {
            return regex_lite_list_is_match_of(raw, number, rest...);
        };
        return detail::matched(*own_, is_match, text, start);
    }

    /// Returns the first match of the pattern with this number.
    std::optional<rxl::Match> find_of(std::size_t number, Text text) const {
        return find_of_at(number, text, 0);
    }
    std::optional<rxl::Match> find_of_at(std::size_t number, Text text, std::size_t start) const {
        return try_find_of_at(number, text, start).value();
    }
    Expected<std::optional<rxl::Match>> try_find_of(std::size_t number, Text text) const {
        return try_find_of_at(number, text, 0);
    }
    Expected<std::optional<rxl::Match>> try_find_of_at(std::size_t number, Text text,
                                                       std::size_t start) const {
        const auto find = [number](regex_lite_list *raw, auto... rest) {
            return regex_lite_list_find_of(raw, number, rest...);
        };
        return detail::found<detail::One>(*own_, find, text.view(), start);
    }

    /// Returns the groups of the first match of the pattern with this number.
    std::optional<rxl::Captures> captures_of(std::size_t number, Text text) const {
        return captures_of_at(number, text, 0);
    }
    std::optional<rxl::Captures> captures_of_at(std::size_t number, Text text,
                                                std::size_t start) const {
        return try_captures_of_at(number, text, start).value();
    }
    Expected<std::optional<rxl::Captures>> try_captures_of(std::size_t number, Text text) const {
        return try_captures_of_at(number, text, 0);
    }
    Expected<std::optional<rxl::Captures>> try_captures_of_at(std::size_t number, Text text,
                                                              std::size_t start) const {
        const auto captures = [number](regex_lite_list *raw, auto... rest) {
            return regex_lite_list_captures_of(raw, number, rest...);
        };
        return detail::attempt([&]() -> Expected<std::optional<rxl::Captures>> {
            detail::GroupRoom<std::size_t> room(0);
            const Expected<bool> is_there = room.ask(*own_, captures, text.view(), start);
            if (!is_there.has_value()) return is_there.error();
            if (!*is_there) return std::nullopt;
            rxl::Captures own;
            detail::One::set(own, text.view(), room.first(), {number, room.told()},
                             own_->patterns);
            return own;
        });
    }

  private:
    explicit RegexList(Own own) noexcept : Searches(std::move(own)) {}

    /// Builds the list of patterns that are shared with another list, or new.
    static Expected<RegexList> built(std::vector<detail::SharedPattern> patterns) {
        std::string joined;
        std::vector<regex_lite_list_pattern> each;
        for (const detail::SharedPattern &pattern : patterns) {
            joined += pattern->text;
            each.push_back({pattern->text.size(), detail::raw(pattern->options)});
        }
        auto own = std::make_shared<detail::Owner<detail::Many>>();
        detail::Message message;
        regex_lite_list_refusal refused{};
        const std::uint32_t answer =
            own->call(regex_lite_list_new, detail::bytes(joined), joined.size(),
                      each.data(), patterns.size(), message.data(), message.size(), &refused);
        if (answer != REGEX_LITE_YES) {
            const std::string_view why = detail::view(message, refused.message_len);
            if (refused.number >= patterns.size()) return detail::refusal(answer, why, {}, {});
            const detail::Pattern &own_pattern = *patterns[refused.number];
            return detail::refusal(answer, why, own_pattern.text, own_pattern.options,
                                   refused.number);
        }
        own->patterns = std::move(patterns);
        return RegexList(std::move(own));
    }
};

/// Runs one regex over many texts, with memory that it keeps: each call copies its text, and once
/// there is room for the longest, it requests no memory.
///
/// It has a regex of its own and no lock, so it is for one thread at a time; each thread makes its
/// own from a shared Regex, and these can search at the same time.
class Searcher {
  public:
    /// Builds the regex of the same pattern and settings.
    explicit Searcher(const Regex &regex) : Searcher(try_build(regex).value()) {}
    Searcher(Searcher &&) noexcept = default;
    Searcher &operator=(Searcher &&) noexcept = default;
    static Expected<Searcher> try_build(const Regex &regex) {
        return detail::attempt([&]() -> Expected<Searcher> {
            const detail::Pattern &known = regex.known();
            const auto built = detail::own<detail::NoMutex>(known.text, known.options);
            if (!built.has_value()) return built.error();
            auto own = std::make_shared<detail::Owner<detail::Kept, detail::NoMutex>>();
            const Expected<bool> is_moved = (*built)->call([&](regex_lite *raw) {
                return detail::answered(own->call(regex_lite_searcher_new, raw));
            });
            if (!is_moved.has_value()) return is_moved.error();
            own->patterns = (*built)->patterns;
            return Searcher(std::move(own));
        });
    }

    /// Returns whether there is a match, as Regex::is_match does.
    bool is_match(std::string_view text) { return is_match_at(text, 0); }
    bool is_match_at(std::string_view text, std::size_t start) {
        return try_is_match_at(text, start).value();
    }
    Expected<bool> try_is_match(std::string_view text) { return try_is_match_at(text, 0); }
    Expected<bool> try_is_match_at(std::string_view text, std::size_t start) {
        const auto is_match = [](regex_lite_searcher *raw, std::size_t from) {
            regex_lite_span span{};
            return from == 0 ? regex_lite_searcher_is_match(raw)
                             : regex_lite_searcher_find(raw, from, &span);
        };
        return detail::matched(*own_, detail::reading(is_match), text, start);
    }

    /// Returns the first match, as Regex::find does.
    std::optional<Match> find(Text text) { return find_at(text, 0); }
    std::optional<Match> find_at(Text text, std::size_t start) {
        return try_find_at(text, start).value();
    }
    Expected<std::optional<Match>> try_find(Text text) { return try_find_at(text, 0); }
    Expected<std::optional<Match>> try_find_at(Text text, std::size_t start) {
        const auto find = detail::reading(regex_lite_searcher_find);
        return detail::found<detail::One>(*own_, find, text.view(), start);
    }

    /// Returns the groups of the first match, or a null pointer if there is no match. They are lent
    /// until the next call.
    const Captures *captures(Text text) { return captures_at(text, 0); }
    const Captures *captures_at(Text text, std::size_t start) {
        return try_captures_at(text, start).value();
    }
    Expected<const Captures *> try_captures(Text text) { return try_captures_at(text, 0); }
    Expected<const Captures *> try_captures_at(Text text, std::size_t start) {
        const auto captures = detail::reading(regex_lite_searcher_captures);
        const Expected<bool> is_there =
            detail::captured(*own_, groups_, captures, text.view(), start);
        if (!is_there.has_value()) return is_there.error();
        return *is_there ? &groups_ : nullptr;
    }

    /// Returns the first match in each of several texts: a range of anything that a Text can be
    /// made of. The matches are lent until the next call. The searches share the transitions that
    /// they cache.
    template <class Texts, std::enable_if_t<detail::are_lasting<Texts>, int> = 0>
    const std::vector<std::optional<Match>> &find_each(Texts &&texts) {
        return *try_find_each(texts).value();
    }
    template <class Texts, std::enable_if_t<detail::are_lasting<Texts>, int> = 0>
    Expected<const std::vector<std::optional<Match>> *> try_find_each(Texts &&texts) {
        return detail::attempt([&]() -> Expected<const std::vector<std::optional<Match>> *> {
            each_.clear();
            for (auto &&text : texts) {
                const auto found = try_find(std::forward<decltype(text)>(text));
                if (!found.has_value()) return found.error();
                each_.push_back(*found);
            }
            return &each_;
        });
    }
    template <class Texts, std::enable_if_t<!detail::are_lasting<Texts>, int> = 0>
    void find_each(Texts &&) = delete;
    template <class Texts, std::enable_if_t<!detail::are_lasting<Texts>, int> = 0>
    void try_find_each(Texts &&) = delete;

  private:
    using Own = std::shared_ptr<detail::Owner<detail::Kept, detail::NoMutex>>;

    explicit Searcher(Own own) noexcept : own_(std::move(own)) {}

    Own own_;
    Captures groups_;
    std::vector<std::optional<Match>> each_;
};

/// Returns the pattern that matches exactly this text, under the default settings.
inline Expected<std::string> try_escape(std::string_view text) {
    auto pattern = detail::written(
        2 * text.size(), [&](std::uint8_t *room, std::size_t room_len, std::size_t *len) {
            return regex_lite_escape(detail::bytes(text), text.size(), room, room_len, len);
        });
    if (!pattern.has_value()) return pattern.error();
    return (*std::move(pattern)).value();
}
inline std::string escape(std::string_view text) { return try_escape(text).value(); }

/// Returns whether bytes are UTF-8, as patterns and texts have to be.
inline bool is_text(std::string_view bytes) noexcept {
    return regex_lite_is_text(detail::bytes(bytes), bytes.size());
}

/// Returns the version of the library: REGEX_LITE_VERSION if it is that of the header, followed by
/// "+unproved" if it was built without a proof.
inline std::string version() {
    return *detail::written(40, regex_lite_version).value();
}

} // namespace rxl

#endif
