// lxr.hpp: lxr.h as C++17 types. SPDX: MIT OR Apache-2.0
//
//     lxr::heap heap(64);                      // 64 blocks of 32 KB
//     lxr::root list;                          // nil: no register is taken
//     for (std::uint64_t n = 0; n < 10; ++n) {
//         lxr::root pair = heap.make(1, 1);    // one reference, one data word
//         pair.put(0, n);
//         pair.store(0, list);
//         list = std::move(pair);              // all of this is `list = heap.make_with({list}, {n});`
//     }
//     std::cout << list.load(0).get(0);        // 8
//
//     lxr::array table = heap.make_array(100000);   // so many nil elements
//     table.store(7, list);
//     for (const lxr::root& element : table) ..     // each takes a register while it is looked at
//     lxr::words text = heap.make_words(3);
//     text.write(0, {1, 2, 3});
//
// A `heap` owns all its objects; it is moved and never copied. A `root` holds an object, or is nil: it takes one of the heap's registers
// for as long as it lives, and lets go of it then. Objects that no root leads to are reclaimed. Of a heap's registers, 16 to 256 as its
// settings say, all but two are for roots, since register 0 is kept for the world and register 15 is always nil; so what has more objects
// keeps them in an object, as a frame, and not in roots.
//
// What can't be done is thrown, as an `lxr::error`, which is a `std::system_error` with a code of `lxr::category()`; then nothing has
// changed, but by a `batch` that was done in part. Where a full heap isn't a surprise, `try_make`, `try_make_with` and `try_make_large`
// answer a nil root instead. A root doesn't outlive its heap: asserted.
#ifndef LXR_HPP
#define LXR_HPP

#include "lxr.h"

#include <array>
#include <bitset>
#include <cassert>
#include <cstddef>
#include <cstdint>
#include <functional>
#include <initializer_list>
#include <iterator>
#include <memory>
#include <string>
#include <system_error>
#include <type_traits>
#include <utility>
#include <vector>

namespace lxr {

class heap;
class mutator;

/// What a call of lxr.h answers.
enum class errc : lxr_code {
    no_heap = LXR_E_NO_HEAP,
    in_use = LXR_E_IN_USE,
    no_register = LXR_E_REGISTER,
    size = LXR_E_SIZE,
    nil = LXR_E_NIL,
    index = LXR_E_INDEX,
    full = LXR_E_FULL,
    memory = LXR_E_MEMORY,
    what = LXR_E_WHAT,
    number = LXR_E_NUMBER,
    rests = LXR_E_RESTS,
    awake = LXR_E_AWAKE,
    used_up = LXR_E_USED_UP,
    lost = LXR_E_LOST,
};

namespace detail {

class category final : public std::error_category {
public:
    const char* name() const noexcept override { return "lxr"; }
    std::string message(int code) const override { return lxr_message(static_cast<lxr_code>(code)); }
    std::error_condition default_error_condition(int code) const noexcept override {
        switch (static_cast<errc>(code)) {
        case errc::full:
        case errc::memory:
        case errc::lost: return std::errc::not_enough_memory;
        case errc::number: return std::errc::resource_unavailable_try_again;
        case errc::size:
        case errc::index: return std::errc::argument_out_of_domain;
        default: return std::errc::invalid_argument;
        }
    }
};

}  // namespace detail

/// The category of the codes of lxr.h.
inline const std::error_category& category() noexcept {
    static const detail::category the_category;
    return the_category;
}

inline std::error_code make_error_code(errc code) noexcept { return {static_cast<int>(code), category()}; }

}  // namespace lxr

template <> struct std::is_error_code_enum<lxr::errc> : std::true_type {};

namespace lxr {

/// What is thrown where a call answers another code than LXR_OK.
class error : public std::system_error {
public:
    explicit error(errc code) : std::system_error(make_error_code(code)) {}
    [[nodiscard]] errc reason() const noexcept { return static_cast<errc>(code().value()); }
};

/// How many fields an object has; `blocks` is that of its body, and 0 where it isn't a large object.
struct shape {
    std::uint32_t refs, words, blocks;
};

namespace detail {

/// What the items of a range are that stand one after another, as those of a vector or an array.
template <typename Range> using item_of = std::remove_pointer_t<decltype(std::data(std::declval<Range&>()))>;

/// Where nothing is to be read or written a pointer may be null; but a call takes none that is.
template <typename Item> Item* not_null(Item* items) noexcept {
    static std::remove_const_t<Item> none{};
    return items ? items : &none;
}

}  // namespace detail

/// Words that a call reads: `{1, 2}`, a vector or an array of them, or a pointer and a number. It lives as long as the call.
class word_list {
public:
    word_list(std::initializer_list<std::uint64_t> words) noexcept : word_list(words.begin(), words.size()) {}
    word_list(const std::uint64_t* words, std::size_t count) noexcept : words_(words), count_(count) {}
    template <typename Range, typename = std::enable_if_t<std::is_same_v<detail::item_of<const Range>, const std::uint64_t>>>
    word_list(const Range& words) noexcept : word_list(std::data(words), std::size(words)) {}

    [[nodiscard]] const std::uint64_t* data() const noexcept { return detail::not_null(words_); }
    [[nodiscard]] std::size_t size() const noexcept { return count_; }

private:
    const std::uint64_t* words_;
    std::size_t count_;
};

namespace detail {

/// Roots, or locals, whose objects a call reads: `{left, right}`, or a vector or an array of them. It lives as long as the call.
template <typename Root> class holder_list {
public:
    /// One of those that braces name. It may be a temporary, which lives as long as the call too.
    struct named {
        const Root* it;
        named(const Root& root) noexcept : it(&root) {}
    };

    holder_list(std::initializer_list<named> roots) noexcept : holder_list(roots.begin(), roots.size()) {}
    holder_list(const named* roots, std::size_t count) noexcept : named_(roots), count_(count) {}
    template <typename Range, typename = std::enable_if_t<std::is_same_v<item_of<const Range>, const Root>>>
    holder_list(const Range& roots) noexcept : roots_(std::data(roots)), count_(std::size(roots)) {}

    [[nodiscard]] const Root& operator[](std::size_t at) const noexcept { return roots_ ? roots_[at] : *named_[at].it; }
    [[nodiscard]] std::size_t size() const noexcept { return count_; }

private:
    const Root* roots_ = nullptr;
    const named* named_ = nullptr;
    std::size_t count_;
};

/// Numbers of registers, at most as many as an object has references.
struct register_list {
    std::array<std::uint32_t, LXR_MOST_REFS> numbers;
    std::size_t count = 0;
};

inline void done(lxr_code code) {
    if (code != LXR_OK) throw error(static_cast<errc>(code));
}

/// The register that holds the world, and the one that is nil for good, however many there are.
inline constexpr std::uint32_t world = 0, nil = LXR_REGISTERS - 1;

/// Which of a heap's registers are taken.
class taken_registers {
public:
    explicit taken_registers(std::uint32_t registers = LXR_REGISTERS) noexcept : registers_(registers) {}

    bool are_none() const noexcept { return count_ == 0; }

    /// The first that is free: so those in use stand together.
    std::uint32_t take() {
        while (first_free_ < registers_ && is_taken(first_free_)) ++first_free_;
        if (first_free_ >= registers_) throw error(errc::no_register);
        taken_[first_free_] = true;
        ++count_;
        return first_free_++;
    }

    void give_back(std::uint32_t at) noexcept {
        if (!taken_[at]) return;  // it is kept
        taken_[at] = false;
        --count_;
        if (at < first_free_) first_free_ = at;
    }

private:
    bool is_taken(std::uint32_t at) const noexcept { return at == world || at == nil || taken_[at]; }

    std::uint32_t registers_, count_ = 0;
    std::uint32_t first_free_ = 0;  // none before it is free
    std::bitset<LXR_MOST_REGISTERS> taken_;
};

/// How many registers a heap of these settings has.
inline std::uint32_t registers_of(const lxr_settings& settings) noexcept {
    return settings.size != offsetof(lxr_settings, registers) && settings.registers != 0 ? settings.registers : LXR_REGISTERS;
}

/// A heap for one thread: its handle, which stays where it is, and its registers.
struct state {
    lxr_heap handle{};
    taken_registers taken;

    explicit state(const lxr_settings& settings) : taken(registers_of(settings)) { done(lxr_open(&handle, &settings)); }
    state(const state&) = delete;
    state& operator=(const state&) = delete;
    ~state() {
        assert(taken.are_none() && "a root outlives its heap");
        lxr_close(&handle);
    }

    lxr_code load(std::uint32_t dest, std::uint32_t base, std::uint32_t index) { return lxr_load(&handle, dest, base, index); }
    lxr_code store(std::uint32_t base, std::uint32_t index, std::uint32_t source) { return lxr_store(&handle, base, index, source); }
    lxr_code get(std::uint32_t base, std::uint32_t index, std::uint64_t* word) const { return lxr_get(&handle, base, index, word); }
    lxr_code put(std::uint32_t base, std::uint32_t index, std::uint64_t word) { return lxr_put(&handle, base, index, word); }
    lxr_code same(std::uint32_t left, std::uint32_t right, std::uint32_t* same) const { return lxr_same(&handle, left, right, same); }
    lxr_code move(std::uint32_t dest, std::uint32_t source) { return lxr_move(&handle, dest, source); }
    lxr_code clear(std::uint32_t dest) { return lxr_nil(&handle, dest); }
    lxr_code make_with(std::uint32_t dest, const register_list& refs, const word_list& words) {
        return lxr_new_with(&handle, dest, refs.numbers.data(), refs.count, words.data(), words.size());
    }
    lxr_code get_many(std::uint32_t base, std::uint32_t first, std::uint64_t* words, std::size_t count) const {
        return lxr_get_many(&handle, base, first, words, count);
    }
    lxr_code put_many(std::uint32_t base, std::uint32_t first, const word_list& words) {
        return lxr_put_many(&handle, base, first, words.data(), words.size());
    }
    lxr_code load_many(std::uint32_t base, std::uint32_t first, const register_list& registers) {
        return lxr_load_many(&handle, base, first, registers.numbers.data(), registers.count);
    }
    lxr_code store_many(std::uint32_t base, std::uint32_t first, const register_list& registers) {
        return lxr_store_many(&handle, base, first, registers.numbers.data(), registers.count);
    }
    lxr_code apply(lxr_operation* operations, std::size_t count, std::size_t* done) { return lxr_apply(&handle, operations, count, done); }
    lxr_code array_length(std::uint32_t base, std::uint32_t* length) const { return lxr_array_length(&handle, base, length); }
    lxr_code array_load(std::uint32_t dest, std::uint32_t base, std::uint32_t index) { return lxr_array_load(&handle, dest, base, index); }
    lxr_code array_store(std::uint32_t base, std::uint32_t index, std::uint32_t source) {
        return lxr_array_store(&handle, base, index, source);
    }
    lxr_code array_fill(std::uint32_t base, std::uint32_t first, std::uint32_t count, std::uint32_t source) {
        return lxr_array_fill(&handle, base, first, count, source);
    }
    lxr_code array_copy(std::uint32_t to, std::uint32_t at, std::uint32_t from, std::uint32_t first, std::uint32_t count) {
        return lxr_array_copy(&handle, to, at, from, first, count);
    }
    lxr_code words_length(std::uint32_t base, std::uint32_t* length) const { return lxr_words_length(&handle, base, length); }
    lxr_code words_get(std::uint32_t base, std::uint32_t index, std::uint64_t* word) const {
        return lxr_words_get(&handle, base, index, word);
    }
    lxr_code words_put(std::uint32_t base, std::uint32_t index, std::uint64_t word) { return lxr_words_put(&handle, base, index, word); }
    lxr_code words_read(std::uint32_t base, std::uint32_t first, std::uint64_t* words, std::size_t count) const {
        return lxr_words_read(&handle, base, first, words, count);
    }
    lxr_code words_write(std::uint32_t base, std::uint32_t first, const word_list& words) {
        return lxr_words_write(&handle, base, first, words.data(), words.size());
    }
};

template <typename Batch, typename Root, typename State> class operations;
template <typename Root, typename State> class sequence;
template <typename Root, typename State> class elements;

/// What a root of a heap and a local of a mutator do alike: holds an object, or is nil. `State` has the registers, and the calls on them.
template <typename Root, typename State> class holder {
public:
    /// Nil, and of no heap: no register is taken.
    holder() noexcept = default;
    holder(holder&& other) noexcept : state_(std::exchange(other.state_, nullptr)), at_(std::exchange(other.at_, nil)) {}
    holder& operator=(holder&& other) noexcept {
        holder(std::move(other)).exchange_with(*this);
        return *this;
    }
    holder(const holder&) = delete;
    holder& operator=(const holder&) = delete;
    ~holder() {
        if (!state_ || at_ == world) return;
        state_->clear(at_);
        state_->taken.give_back(at_);
    }

    void swap(Root& other) noexcept { exchange_with(other); }
    friend void swap(Root& left, Root& right) noexcept { left.swap(right); }

    /// Whether it holds an object.
    explicit operator bool() const { return !same(Root()); }

    /// Lets go of the object and of the register.
    void reset() noexcept { Root().swap(itself()); }

    /// Another that holds the same object.
    [[nodiscard]] Root copy() const {
        if (!state_) return Root();
        Root made(*state_);
        done(state_->move(made.at_, at_));
        return made;
    }

    /// Whether both are nil or hold one object; of two heaps, or of two mutators, whether both are nil.
    [[nodiscard]] bool same(const Root& other) const {
        State* found = state_ ? state_ : other.state_;
        if (!found) return true;
        if (!other.is_of(*found)) return !*this && !other;
        std::uint32_t same = 0;
        done(found->same(at_, other.at_, &same));
        return same != 0;
    }

    /// What a reference refers to.
    [[nodiscard]] Root load(std::uint32_t index) const {
        Root found(state());
        done(state().load(found.at_, at_, index));
        return found;
    }

    /// Becomes what a reference of an object refers to, in the register that it has; `base` may be this one. So lists are walked.
    void load_from(const Root& base, std::uint32_t index) {
        if (state_ != base.state_ || at_ == world) {
            itself() = base.load(index);
            return;
        }
        done(state().load(at_, base.at_, index));
    }

    /// A reference becomes what `source` holds: one of the same registers, or a nil one. Another is `errc::no_register`.
    void store(std::uint32_t index, const Root& source) { done(state().store(at_, index, register_of(state(), source))); }

    /// A reference becomes nil.
    void clear(std::uint32_t index) { done(state().store(at_, index, nil)); }

    [[nodiscard]] std::uint64_t get(std::uint32_t index) const {
        std::uint64_t word = 0;
        done(state().get(at_, index, &word));
        return word;
    }

    void put(std::uint32_t index, std::uint64_t word) { done(state().put(at_, index, word)); }

    /// Reads data words from `first` on: as many as there is room for, or it throws.
    void get_many(std::uint32_t first, std::uint64_t* into, std::size_t count) const {
        done(state().get_many(at_, first, not_null(into), count));
    }
    template <typename Range, typename = std::enable_if_t<std::is_same_v<item_of<Range>, std::uint64_t>>>
    void get_many(std::uint32_t first, Range& into) const {
        get_many(first, std::data(into), std::size(into));
    }

    /// So many data words from `first` on: `auto [left, right] = pair.get_many<2>(0);`
    template <std::size_t Count> [[nodiscard]] std::array<std::uint64_t, Count> get_many(std::uint32_t first) const {
        std::array<std::uint64_t, Count> words{};
        get_many(first, words);
        return words;
    }

    /// Data words from `first` on become these.
    void put_many(std::uint32_t first, word_list words) { done(state().put_many(at_, first, words)); }

    /// What so many references from `first` on refer to: `auto [left, right] = node.load_many<2>(0);`
    template <std::size_t Count> [[nodiscard]] std::array<Root, Count> load_many(std::uint32_t first) const {
        static_assert(Count < LXR_MOST_REGISTERS, "there are fewer registers");
        std::array<Root, Count> found;
        register_list registers;
        for (Root& one : found) {
            one = Root(state());
            registers.numbers[registers.count++] = one.at_;
        }
        done(state().load_many(at_, first, registers));
        return found;
    }

    /// These become what references from `first` on refer to, in the registers that they have; this one may be the last of them. One that has
    /// none gets one first, and is nil where this throws.
    void load_many(std::uint32_t first, std::initializer_list<std::reference_wrapper<Root>> into) const {
        State& here = state();
        const std::uint32_t base = at_;  // it may be among these
        register_list registers;
        if (into.size() > registers.numbers.size()) throw error(errc::index);
        for (Root& one : into) registers.numbers[registers.count++] = own_register_of(here, one);
        done(here.load_many(base, first, registers));
    }

    /// References from `first` on become what these hold: `node.store_many(0, {left, right});`. Each is as `store` wants it.
    void store_many(std::uint32_t first, holder_list<Root> sources) {
        done(state().store_many(at_, first, registers_of(sources, errc::index)));
    }

private:
    friend Root;
    friend class lxr::heap;
    friend class lxr::mutator;
    template <typename, typename, typename> friend class operations;
    template <typename, typename> friend class sequence;
    template <typename, typename> friend class elements;

    explicit holder(State& state) : state_(&state), at_(state.taken.take()) {}
    holder(State& state, std::uint32_t at) noexcept : state_(&state), at_(at) {}

    State& state() const {
        if (!state_) throw error(errc::nil);
        return *state_;
    }

    /// The register of what is to be stored.
    static std::uint32_t register_of(const State& state, const Root& source) {
        if (source.is_of(state)) return source.at_;
        if (source) throw error(errc::no_register);
        return nil;
    }

    /// Registers of several that are to be stored. More than an object has references are `too_many`.
    register_list registers_of(const holder_list<Root>& sources, errc too_many) const {
        register_list registers;
        if (sources.size() > registers.numbers.size()) throw error(too_many);
        while (registers.count < sources.size()) {
            registers.numbers[registers.count] = register_of(state(), sources[registers.count]);
            ++registers.count;
        }
        return registers;
    }

    /// The register of what is to be written to: its own, which it has from now on, where it had none of these.
    static std::uint32_t own_register_of(State& state, Root& dest) {
        if (dest.state_ != &state || dest.at_ == world) dest = Root(state);
        return dest.at_;
    }

    Root& itself() noexcept { return static_cast<Root&>(*this); }

    bool is_of(const State& state) const noexcept { return !state_ || state_ == &state; }

    void exchange_with(holder& other) noexcept {
        std::swap(state_, other.state_);
        std::swap(at_, other.at_);
    }

    State* state_ = nullptr;
    std::uint32_t at_ = nil;
};

}  // namespace detail

namespace detail {

/// Operations to be done in order by one call, `run`. They name the registers that roots have as an operation is added: until it has run no
/// root of it is moved, assigned to or reset. A root that is to be written to has a register from then on.
template <typename Batch, typename Root, typename State> class operations {
public:
    Batch& make(Root& dest, std::uint32_t refs, std::uint32_t words) { return add(LXR_OP_NEW, own(dest), refs, words); }
    Batch& load(Root& dest, const Root& base, std::uint32_t index) {
        const std::uint32_t from = of(base);  // before `dest` gets a register, since it may be the base
        return add(LXR_OP_LOAD, own(dest), from, index);
    }
    Batch& store(const Root& base, std::uint32_t index, const Root& source) { return add(LXR_OP_STORE, of(base), index, of(source)); }
    Batch& get(const Root& base, std::uint32_t index) { return add(LXR_OP_GET, of(base), index); }
    Batch& put(const Root& base, std::uint32_t index, std::uint64_t word) { return add(LXR_OP_PUT, of(base), index, 0, word); }
    Batch& same(const Root& left, const Root& right) { return add(LXR_OP_SAME, of(left), of(right)); }
    Batch& copy(Root& dest, const Root& source) {
        const std::uint32_t from = of(source);
        return add(LXR_OP_MOVE, own(dest), from);
    }
    Batch& nil(Root& dest) { return add(LXR_OP_NIL, own(dest)); }
    Batch& is_nil(const Root& source) { return add(LXR_OP_IS_NIL, of(source)); }

    /// Does them all; they may run again. Where one can't be done that is thrown, and those before it are done: `done` of them.
    void run() {
        told_ = asked_;
        detail::done(state_.apply(not_null(told_.data()), told_.size(), &done_));
    }

    /// How many were done by the last run.
    [[nodiscard]] std::size_t done() const noexcept { return done_; }

    /// What an operation told by the last run, by its number from 0 on: the word of a `get`, 1 or 0 of a `same` or `is_nil`.
    [[nodiscard]] std::uint64_t told(std::size_t at) const { return told_.at(at).word; }

    [[nodiscard]] std::size_t size() const noexcept { return asked_.size(); }

    /// Forgets them all.
    void clear() noexcept { asked_.clear(); }

protected:
    explicit operations(State& state) noexcept : state_(state) {}

    Batch& add(std::uint32_t op, std::uint32_t a, std::uint32_t b = 0, std::uint32_t c = 0, std::uint64_t word = 0) {
        asked_.push_back(lxr_operation{op, a, b, c, word});
        return static_cast<Batch&>(*this);
    }

    std::uint32_t of(const Root& source) const { return Root::register_of(state_, source); }
    std::uint32_t own(Root& dest) const { return Root::own_register_of(state_, dest); }

private:
    State& state_;
    std::vector<lxr_operation> asked_, told_;
    std::size_t done_ = 0;
};

}  // namespace detail

namespace detail {

/// Goes along an array or words, and reads each element as it is looked at.
template <typename Sequence> class sequence_iterator {
public:
    using iterator_category = std::input_iterator_tag;
    using value_type = typename Sequence::value_type;
    using difference_type = std::ptrdiff_t;
    using reference = value_type;
    using pointer = void;

    sequence_iterator(const Sequence& sequence, std::uint32_t at) noexcept : sequence_(&sequence), at_(at) {}

    value_type operator*() const { return sequence_->read(at_); }
    sequence_iterator& operator++() noexcept {
        ++at_;
        return *this;
    }
    sequence_iterator operator++(int) noexcept { return {*sequence_, at_++}; }
    friend bool operator==(const sequence_iterator& left, const sequence_iterator& right) noexcept { return left.at_ == right.at_; }
    friend bool operator!=(const sequence_iterator& left, const sequence_iterator& right) noexcept { return left.at_ != right.at_; }

private:
    const Sequence* sequence_;
    std::uint32_t at_;
};

/// What an array and words are alike: an object, which a root holds. Moving it costs nothing.
template <typename Root, typename State> class sequence {
public:
    /// Nil, and of no heap.
    sequence() noexcept = default;

    /// Takes any object for one, by its shape: lxr.h says how.
    explicit sequence(Root object) noexcept : object_(std::move(object)) {}

    /// Whether there is an object.
    explicit operator bool() const { return static_cast<bool>(object_); }

    /// Its object, which may be stored as any other.
    [[nodiscard]] const Root& object() const& noexcept { return object_; }
    [[nodiscard]] Root object() && noexcept { return std::move(object_); }

protected:
    State& state() const { return object_.state(); }
    std::uint32_t base() const noexcept { return object_.at_; }

private:
    Root object_;
};

/// What arrays of a heap and of a mutator do alike. `errc::index` is thrown where not all elements are there that a call names; then none is
/// written.
template <typename Root, typename State> class elements : public sequence<Root, State> {
public:
    using value_type = Root;
    using iterator = sequence_iterator<elements>;
    using sequence<Root, State>::sequence;

    [[nodiscard]] std::uint32_t size() const {
        std::uint32_t length = 0;
        done(this->state().array_length(this->base(), &length));
        return length;
    }
    [[nodiscard]] bool empty() const { return size() == 0; }

    /// What an element refers to.
    [[nodiscard]] Root load(std::uint32_t index) const {
        Root found(this->state());
        done(this->state().array_load(found.at_, this->base(), index));
        return found;
    }

    /// An element becomes what `source` holds: one of the same registers, or a nil one. Another is `errc::no_register`.
    void store(std::uint32_t index, const Root& source) { done(this->state().array_store(this->base(), index, of(source))); }

    /// An element becomes nil.
    void clear(std::uint32_t index) { done(this->state().array_store(this->base(), index, nil)); }

    /// All elements, or `count` of them from `first` on, become what `source` holds.
    void fill(const Root& source) { fill(0, size(), source); }
    void fill(std::uint32_t first, std::uint32_t count, const Root& source) {
        done(this->state().array_fill(this->base(), first, count, of(source)));
    }

    /// The `count` elements from `at` on become what those of `from` were, from `first` on; it may be this array, and they may overlap. Of another
    /// array that has a part in common with this one they are copied one after another.
    void copy_from(std::uint32_t at, const elements& from, std::uint32_t first, std::uint32_t count) {
        done(this->state().array_copy(this->base(), at, of(from.object()), first, count));
    }

    /// Elements are loaded as they are looked at, each into a register of its own while it lives. An array doesn't grow, so they stay in place.
    [[nodiscard]] iterator begin() const { return {*this, 0}; }
    [[nodiscard]] iterator end() const { return {*this, size()}; }

protected:
    /// An element becomes what `desired` holds, and what it was is answered: of mutators alone.
    Root swap_element(std::uint32_t index, const Root& desired) {
        Root old(this->state());
        done(this->state().array_swap(old.at_, this->base(), index, of(desired)));
        return old;
    }

private:
    friend iterator;
    std::uint32_t of(const Root& source) const { return Root::register_of(this->state(), source); }
    Root read(std::uint32_t index) const { return load(index); }
};

/// What words of a heap and of a mutator do alike. `errc::index` is thrown where not all words are there that a call names; then none is read or
/// written.
template <typename Root, typename State> class any_words : public sequence<Root, State> {
public:
    using value_type = std::uint64_t;
    using iterator = sequence_iterator<any_words>;
    using sequence<Root, State>::sequence;

    [[nodiscard]] std::uint32_t size() const {
        std::uint32_t length = 0;
        done(this->state().words_length(this->base(), &length));
        return length;
    }
    [[nodiscard]] bool empty() const { return size() == 0; }

    [[nodiscard]] std::uint64_t get(std::uint32_t index) const {
        std::uint64_t word = 0;
        done(this->state().words_get(this->base(), index, &word));
        return word;
    }

    void put(std::uint32_t index, std::uint64_t word) { done(this->state().words_put(this->base(), index, word)); }

    /// Reads words from `first` on: as many as there is room for, or it throws.
    void read(std::uint32_t first, std::uint64_t* into, std::size_t count) const {
        done(this->state().words_read(this->base(), first, not_null(into), count));
    }
    template <typename Range, typename = std::enable_if_t<std::is_same_v<item_of<Range>, std::uint64_t>>>
    void read(std::uint32_t first, Range& into) const {
        read(first, std::data(into), std::size(into));
    }

    /// All words.
    [[nodiscard]] std::vector<std::uint64_t> read() const {
        std::vector<std::uint64_t> all(size());
        read(0, all);
        return all;
    }

    /// Words from `first` on become these.
    void write(std::uint32_t first, word_list words) { done(this->state().words_write(this->base(), first, words)); }

    /// Words are read as they are looked at, one by one: `read` is faster.
    [[nodiscard]] iterator begin() const { return {*this, 0}; }
    [[nodiscard]] iterator end() const { return {*this, size()}; }

private:
    friend iterator;
    std::uint64_t read(std::uint32_t index) const { return get(index); }
};

}  // namespace detail

/// Holds an object of a heap, or is nil. Moving it costs nothing; `copy` takes another register for the same object.
class root : public detail::holder<root, detail::state> {
public:
    using holder::holder;

    [[nodiscard]] lxr::shape shape() const {
        lxr::shape found{};
        detail::done(lxr_shape(handle(), at_, &found.refs, &found.words, &found.blocks));
        return found;
    }

    /// A word of the body of a large object.
    [[nodiscard]] std::uint64_t body_get(std::uint32_t index) const {
        std::uint64_t word = 0;
        detail::done(lxr_large_get(handle(), at_, index, &word));
        return word;
    }

    void body_put(std::uint32_t index, std::uint64_t word) { detail::done(lxr_large_put(handle(), at_, index, word)); }

    /// Reads `count` words of the body from `index` on: all of them, or it throws.
    void body_read(std::uint32_t index, std::uint64_t* into, std::size_t count) const {
        detail::done(lxr_large_read(handle(), at_, index, detail::not_null(into), count));
    }

    void body_write(std::uint32_t index, const std::uint64_t* from, std::size_t count) {
        detail::done(lxr_large_write(handle(), at_, index, detail::not_null(from), count));
    }

private:
    lxr_heap* handle() const { return &state().handle; }
};

/// The roots whose objects a call reads.
using root_list = detail::holder_list<root>;

/// An array of a heap: 0 to 1,046,529 references, as many as it was made with. It has a register for as long as it lives, as a root has.
class array : public detail::elements<root, detail::state> {
public:
    using elements::elements;
};

/// Words of a heap: 0 to 524,287 of them, as many as they were made with, for strings and long numbers.
class words : public detail::any_words<root, detail::state> {
public:
    using any_words::any_words;
};

/// A heap for one thread. It is moved and not copied, and used by one thread at a time.
class heap {
public:
    /// Opens a heap of 1 to 65,536 blocks of 32 KB for objects, and as many for bodies, with the header's settings. All its memory is
    /// reserved now.
    explicit heap(std::uint32_t blocks, std::uint32_t body_blocks = 1) : heap(lxr_settings LXR_SETTINGS(blocks, body_blocks)) {}

    /// Opens a heap of these settings.
    explicit heap(const lxr_settings& settings) : state_(std::make_unique<detail::state>(settings)) {}

    /// The world: an object with 64 references that is kept for good. It takes no register from the roots.
    [[nodiscard]] root world() { return root(state(), detail::world); }

    /// A new object with nil references and words of 0.
    [[nodiscard]] root make(std::uint32_t refs, std::uint32_t words) {
        root made(state());
        detail::done(lxr_new(handle(), made.at_, refs, words));
        return made;
    }

    /// A new object whose references are what these roots hold, and whose words are these: `heap.make_with({left, right}, {1, 2})`. A nil root
    /// is a nil reference.
    [[nodiscard]] root make_with(root_list refs, word_list words) {
        root made(state());
        detail::done(state().make_with(made.at_, made.registers_of(refs, errc::size), words));
        return made;
    }

    /// A new large object, with a body of 1 to 128 blocks of 4,096 words of 0.
    [[nodiscard]] root make_large(std::uint32_t blocks) {
        root made(state());
        detail::done(lxr_large_new(handle(), made.at_, blocks));
        return made;
    }

    /// A new array of so many nil elements, up to 1,046,529.
    [[nodiscard]] array make_array(std::uint32_t length) {
        root made(state());
        detail::done(lxr_array_new(handle(), made.at_, length));
        return array(std::move(made));
    }

    /// So many new words of 0, up to 524,287.
    [[nodiscard]] words make_words(std::uint32_t length) {
        root made(state());
        detail::done(lxr_words_new(handle(), made.at_, length));
        return words(std::move(made));
    }

    /// As `make_array`, but a nil array where the heap is full.
    [[nodiscard]] array try_make_array(std::uint32_t length) {
        root made(state());
        const lxr_code code = lxr_array_new(handle(), made.at_, length);
        return array(made_or_nil(std::move(made), code));
    }

    /// As `make_words`, but nil words where the heap is full.
    [[nodiscard]] words try_make_words(std::uint32_t length) {
        root made(state());
        const lxr_code code = lxr_words_new(handle(), made.at_, length);
        return words(made_or_nil(std::move(made), code));
    }

    /// As `make`, but a nil root where the heap is full.
    [[nodiscard]] root try_make(std::uint32_t refs, std::uint32_t words) {
        root made(state());
        const lxr_code code = lxr_new(handle(), made.at_, refs, words);
        return made_or_nil(std::move(made), code);
    }

    /// As `make_with`, but a nil root where the heap is full.
    [[nodiscard]] root try_make_with(root_list refs, word_list words) {
        root made(state());
        const lxr_code code = state().make_with(made.at_, made.registers_of(refs, errc::size), words);
        return made_or_nil(std::move(made), code);
    }

    /// As `make_large`, but a nil root where the heap is full.
    [[nodiscard]] root try_make_large(std::uint32_t blocks) {
        root made(state());
        const lxr_code code = lxr_large_new(handle(), made.at_, blocks);
        return made_or_nil(std::move(made), code);
    }

    /// A pause by counts alone.
    void pause() { detail::done(lxr_pause(handle())); }

    /// A pause that leaves exactly what can be reached.
    void collect() { detail::done(lxr_collect(handle())); }

    /// The first `count` registers stay in use: roots that have one behind them are nil from now on. Roots take the first register that is
    /// free, and give it back as they end, so a heap whose roots come and go needs no such call.
    void registers_in_use(std::uint32_t count) { detail::done(lxr_registers_in_use(handle(), count)); }

    /// A plain pause after so many bytes of new objects; or `LXR_PACE_NEVER`, `LXR_PACE_ROOM`.
    void set_pace(std::uint64_t bytes) { detail::done(lxr_set_pace(handle(), bytes)); }

    /// A pause that is due collects where more than so many blocks are in use; 0: all.
    void set_room(std::uint32_t blocks) { detail::done(lxr_set_room(handle(), blocks)); }

    /// Each collecting pause sets the room to what it leaves in use and so many hundredths more; 0: none does.
    void set_grow(std::uint32_t hundredths) { detail::done(lxr_set_grow(handle(), hundredths)); }

    /// Memory of blocks that are wholly free goes back to the system: `collect` before it gives most. Nothing else that can be told changes.
    void trim() { detail::done(lxr_trim(handle())); }

    /// Does up to so many units of what waits for the next plain pause: in idle time, say. Whether there is more to do before that.
    bool work(std::uint32_t units) {
        std::uint32_t more = 0;
        detail::done(lxr_work(handle(), units, &more));
        return more != 0;
    }

    /// So many units are done by itself for each 64 bytes of new objects; 0: none.
    void set_work(std::uint32_t units) { detail::done(lxr_set_work(handle(), units)); }

    [[nodiscard]] std::uint64_t pauses() const { return count(LXR_COUNT_PAUSES); }
    [[nodiscard]] std::uint64_t promoted() const { return count(LXR_COUNT_PROMOTED); }
    [[nodiscard]] std::uint64_t dead() const { return count(LXR_COUNT_DEAD); }
    [[nodiscard]] std::uint64_t stuck() const { return count(LXR_COUNT_STUCK); }
    [[nodiscard]] std::uint64_t swept() const { return count(LXR_COUNT_SWEPT); }
    [[nodiscard]] std::uint64_t live() const { return count(LXR_COUNT_LIVE); }
    [[nodiscard]] std::uint64_t free_blocks() const { return count(LXR_COUNT_FREE_BLOCKS); }
    [[nodiscard]] std::uint64_t free_body_bytes() const { return count(LXR_COUNT_FREE_BODY_BYTES); }
    [[nodiscard]] std::uint64_t room() const { return count(LXR_COUNT_ROOM); }
    [[nodiscard]] std::uint64_t waiting() const { return count(LXR_COUNT_WAITING); }

private:
    friend class batch;

    detail::state& state() const {
        if (!state_) throw error(errc::no_heap);
        return *state_;
    }
    lxr_heap* handle() const { return &state().handle; }

    std::uint64_t count(std::uint32_t what) const {
        std::uint64_t number = 0;
        detail::done(lxr_count(handle(), what, &number));
        return number;
    }

    static root made_or_nil(root made, lxr_code code) {
        if (code == LXR_E_FULL) return root();
        detail::done(code);
        return made;
    }

    std::unique_ptr<detail::state> state_;
};

/// Operations of a heap, done by one call. It doesn't outlive the heap.
///
///     lxr::batch batch(heap);
///     lxr::root pair;
///     batch.make(pair, 1, 1).put(pair, 0, 7).store(pair, 0, list).get(list, 0).run();
///     std::cout << batch.told(3);  // what `get` told
class batch : public detail::operations<batch, root, detail::state> {
public:
    explicit batch(heap& heap) : operations(heap.state()) {}
};

}  // namespace lxr

#endif
