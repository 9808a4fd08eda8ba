// lxr_threads.hpp: lxr_threads.h as C++17 types. SPDX: MIT OR Apache-2.0
//
//     lxr::shared_heap heap(64, 4);                // 64 blocks of 32 KB, and up to four threads at once
//     std::thread([&heap] {
//         lxr::mutator self(heap);                 // from here on this thread takes part
//         lxr::local pair = self.make(1, 1);       // one reference, one data word
//         pair.put(0, 7);
//         lxr::local old = self.world().exchange(0, pair);
//         lxr::local_array table = self.make_array(100000);  // so many nil elements
//         lxr::resting rest(self);                 // until the end of the block the thread may block: it holds up no pause
//     }).join();
//
// A `shared_heap` owns all objects, and each thread of the host that calls it has a `mutator` of its own, which may be handed to another
// thread, as a unique_ptr may. A `local` holds an object for its mutator, or is nil: it takes one of the mutator's registers for as long as
// it lives, and lets go of it then. Of these, 16 to 256 as the heap's settings say, two are kept. What one thread is to have of another goes
// through the heap: through the world, which all mutators have, and what it leads to.
//
// What can't be done is thrown, as an `lxr::error`; then nothing has changed, but what several operations at once have done by then. Where a
// full heap isn't a surprise, `try_make` and `try_make_with` answer a nil local instead. A local doesn't outlive its mutator, nor a mutator
// its heap: asserted.
#ifndef LXR_THREADS_HPP
#define LXR_THREADS_HPP

#include "lxr.hpp"
#include "lxr_threads.h"

#include <cassert>
#include <cstddef>
#include <cstdint>
#include <memory>
#include <utility>

namespace lxr {

namespace detail {

/// How many registers each mutator has in a heap of these settings.
inline std::uint32_t registers_of(const lxr_shared_heap_settings& settings) noexcept {
    return settings.size != offsetof(lxr_shared_heap_settings, evacuate) && settings.registers != 0 ? settings.registers : LXR_REGISTERS;
}

/// A mutator, which stays where it is, and which of its registers are taken.
struct share {
    lxr_mutator* handle = nullptr;
    taken_registers taken;
    bool rests = false;

    share(lxr_shared_heap* heap, std::uint32_t registers) : taken(registers) { done(lxr_mutator_enter(heap, &handle)); }
    share(const share&) = delete;
    share& operator=(const share&) = delete;
    ~share() {
        assert(taken.are_none() && "a local outlives its mutator");
        assert(!rests && "a rest outlives its mutator");
        lxr_mutator_leave(&handle);
    }

    lxr_code load(std::uint32_t dest, std::uint32_t base, std::uint32_t index) { return lxr_mutator_load(handle, dest, base, index); }
    lxr_code store(std::uint32_t base, std::uint32_t index, std::uint32_t source) { return lxr_mutator_store(handle, base, index, source); }
    lxr_code get(std::uint32_t base, std::uint32_t index, std::uint64_t* word) { return lxr_mutator_get(handle, base, index, word); }
    lxr_code put(std::uint32_t base, std::uint32_t index, std::uint64_t word) { return lxr_mutator_put(handle, base, index, word); }
    lxr_code same(std::uint32_t left, std::uint32_t right, std::uint32_t* same) { return lxr_mutator_same(handle, left, right, same); }
    lxr_code move(std::uint32_t dest, std::uint32_t source) { return lxr_mutator_move(handle, dest, source); }
    lxr_code clear(std::uint32_t dest) { return lxr_mutator_nil(handle, dest); }
    lxr_code make_with(std::uint32_t dest, const register_list& refs, const word_list& words) {
        return lxr_mutator_new_with(handle, dest, refs.numbers.data(), refs.count, words.data(), words.size());
    }
    lxr_code get_many(std::uint32_t base, std::uint32_t first, std::uint64_t* words, std::size_t count) {
        return lxr_mutator_get_many(handle, base, first, words, count);
    }
    lxr_code put_many(std::uint32_t base, std::uint32_t first, const word_list& words) {
        return lxr_mutator_put_many(handle, base, first, words.data(), words.size());
    }
    lxr_code load_many(std::uint32_t base, std::uint32_t first, const register_list& registers) {
        return lxr_mutator_load_many(handle, base, first, registers.numbers.data(), registers.count);
    }
    lxr_code store_many(std::uint32_t base, std::uint32_t first, const register_list& registers) {
        return lxr_mutator_store_many(handle, base, first, registers.numbers.data(), registers.count);
    }
    lxr_code apply(lxr_operation* operations, std::size_t count, std::size_t* done) {
        return lxr_mutator_apply(handle, operations, count, done);
    }
    lxr_code array_length(std::uint32_t base, std::uint32_t* length) { return lxr_mutator_array_length(handle, base, length); }
    lxr_code array_load(std::uint32_t dest, std::uint32_t base, std::uint32_t index) {
        return lxr_mutator_array_load(handle, dest, base, index);
    }
    lxr_code array_store(std::uint32_t base, std::uint32_t index, std::uint32_t source) {
        return lxr_mutator_array_store(handle, base, index, source);
    }
    lxr_code array_swap(std::uint32_t dest, std::uint32_t base, std::uint32_t index, std::uint32_t source) {
        return lxr_mutator_array_swap(handle, dest, base, index, source);
    }
    lxr_code array_fill(std::uint32_t base, std::uint32_t first, std::uint32_t count, std::uint32_t source) {
        return lxr_mutator_array_fill(handle, base, first, count, source);
    }
    lxr_code array_copy(std::uint32_t to, std::uint32_t at, std::uint32_t from, std::uint32_t first, std::uint32_t count) {
        return lxr_mutator_array_copy(handle, to, at, from, first, count);
    }
    lxr_code words_length(std::uint32_t base, std::uint32_t* length) { return lxr_mutator_words_length(handle, base, length); }
    lxr_code words_get(std::uint32_t base, std::uint32_t index, std::uint64_t* word) {
        return lxr_mutator_words_get(handle, base, index, word);
    }
    lxr_code words_put(std::uint32_t base, std::uint32_t index, std::uint64_t word) {
        return lxr_mutator_words_put(handle, base, index, word);
    }
    lxr_code words_read(std::uint32_t base, std::uint32_t first, std::uint64_t* words, std::size_t count) {
        return lxr_mutator_words_read(handle, base, first, words, count);
    }
    lxr_code words_write(std::uint32_t base, std::uint32_t first, const word_list& words) {
        return lxr_mutator_words_write(handle, base, first, words.data(), words.size());
    }
};

struct closes {
    void operator()(lxr_shared_heap* heap) const noexcept {
        [[maybe_unused]] const lxr_code code = lxr_shared_heap_close(&heap);
        assert(code == LXR_OK && "a mutator outlives its heap");
    }
};

}  // namespace detail

/// What a pause was.
enum class pause_kind : std::uint64_t {
    plain = LXR_KIND_PLAIN,
    begin = LXR_KIND_BEGIN,
    end = LXR_KIND_END,
    collect = LXR_KIND_COLLECT,
};

/// Holds an object for a mutator, or is nil. Moving it costs nothing; `copy` takes another register for the same object.
class local : public detail::holder<local, detail::share> {
public:
    using holder::holder;

    /// A reference becomes what `desired` holds, and what it was is answered, in one step of all threads. `desired` is as `store` wants it.
    local exchange(std::uint32_t index, const local& desired) {
        local old(state());
        detail::done(lxr_mutator_swap(state().handle, old.at_, at_, index, register_of(state(), desired)));
        return old;
    }

    /// A data word becomes its sum with `word` modulo 2^64, and what it was is answered, in one step of all threads.
    std::uint64_t fetch_add(std::uint32_t index, std::uint64_t word) {
        std::uint64_t old = 0;
        detail::done(lxr_mutator_add(state().handle, at_, index, word, &old));
        return old;
    }
};

/// The locals whose objects a call reads.
using local_list = detail::holder_list<local>;

/// An array that a mutator has a local of: 0 to 1,046,529 references, as many as it was made with. Its elements are loaded and stored one by one,
/// each in one order for all threads; what others may see of `fill` and `copy_from` meanwhile lxr_threads.h says.
class local_array : public detail::elements<local, detail::share> {
public:
    using elements::elements;

    /// An element becomes what `desired` holds, and what it was is answered, in one step of all threads. `desired` is as `store` wants it.
    local exchange(std::uint32_t index, const local& desired) { return swap_element(index, desired); }
};

/// Words that a mutator has a local of: 0 to 1,023 of them, as many as they were made with.
class local_words : public detail::any_words<local, detail::share> {
public:
    using any_words::any_words;
};

/// A heap that threads share. It is moved and not copied, and that, as its end, while no mutator is in it.
class shared_heap {
public:
    /// Opens a heap of 1 to 65,536 blocks of 32 KB, for 1 to 255 mutators at once, with the header's settings: plain pauses by the size of the
    /// heap, and traces by the room, each of which evacuates an eighth of the blocks at most, and at most 64.
    shared_heap(std::uint32_t blocks, std::uint32_t mutators)
        : shared_heap(lxr_shared_heap_settings LXR_SHARED_HEAP_SETTINGS(blocks, mutators)) {}

    /// Opens a heap of these settings, among them the pace, what a trace evacuates and how many registers each mutator has, and starts its
    /// helpers. Its `paused` is told of each pause by the thread that made it, and throws nothing.
    explicit shared_heap(const lxr_shared_heap_settings& settings) : registers_(detail::registers_of(settings)) {
        lxr_shared_heap* opened = nullptr;
        detail::done(lxr_shared_heap_open(&opened, &settings));
        heap_.reset(opened);
    }

    /// So many blocks are in use before the library collects, from the next pause on; 0: all.
    void set_room(std::uint32_t blocks) { detail::done(lxr_shared_heap_set_room(handle(), blocks)); }

    /// Each collecting pause and end of a trace sets the room to what it leaves in use and so many hundredths more; 0: none does.
    void set_grow(std::uint32_t hundredths) { detail::done(lxr_shared_heap_set_grow(handle(), hundredths)); }

    [[nodiscard]] std::uint64_t pauses() const { return count(LXR_COUNT_PAUSES); }
    [[nodiscard]] std::uint64_t collected() const { return count(LXR_COUNT_COLLECTING); }
    [[nodiscard]] std::uint64_t promoted() const { return count(LXR_COUNT_PROMOTED); }
    [[nodiscard]] std::uint64_t dead() const { return count(LXR_COUNT_DEAD); }
    [[nodiscard]] std::uint64_t stuck() const { return count(LXR_COUNT_STUCK); }
    [[nodiscard]] std::uint64_t swept() const { return count(LXR_COUNT_SWEPT); }
    [[nodiscard]] std::uint64_t entered() const { return count(LXR_COUNT_ENTERED); }
    [[nodiscard]] std::uint64_t resting() const { return count(LXR_COUNT_RESTING); }
    [[nodiscard]] std::uint64_t free_blocks() const { return count(LXR_COUNT_FREE_BLOCKS); }
    [[nodiscard]] std::uint64_t room() const { return count(LXR_COUNT_ROOM); }

    /// The kind of the last pause; plain before the first.
    [[nodiscard]] pause_kind last_kind() const { return static_cast<pause_kind>(count(LXR_COUNT_LAST_KIND)); }

private:
    friend class mutator;

    lxr_shared_heap* handle() const {
        if (!heap_) throw error(errc::no_heap);
        return heap_.get();
    }

    std::uint64_t count(std::uint32_t what) const {
        std::uint64_t number = 0;
        detail::done(lxr_shared_heap_count(handle(), what, &number));
        return number;
    }

    std::unique_ptr<lxr_shared_heap, detail::closes> heap_;
    std::uint32_t registers_;
};

/// A thread's registers in a heap, and its right to call: from here on it takes part in pauses, which wait for it. It is moved and not
/// copied, and used by one thread at a time.
class mutator {
public:
    /// Enters a heap, with registers that are nil. `errc::number` says that as many mutators are in it as may be.
    explicit mutator(const shared_heap& heap) : share_(std::make_unique<detail::share>(heap.handle(), heap.registers_)) {}

    /// The world: an object with 64 references that all mutators have, and that is kept for good. It takes no register from the locals.
    [[nodiscard]] local world() { return local(share(), detail::world); }

    /// A new object with nil references and words of 0.
    [[nodiscard]] local make(std::uint32_t refs, std::uint32_t words) {
        local made(share());
        detail::done(lxr_mutator_new(share().handle, made.at_, refs, words));
        return made;
    }

    /// A new object whose references are what these locals hold, and whose words are these: `self.make_with({left, right}, {1, 2})`. A nil
    /// local is a nil reference.
    [[nodiscard]] local make_with(local_list refs, word_list words) {
        local made(share());
        detail::done(share().make_with(made.at_, made.registers_of(refs, errc::size), words));
        return made;
    }

    /// A new array of so many nil elements, up to 1,046,529. No other thread finds it before it is stored.
    [[nodiscard]] local_array make_array(std::uint32_t length) {
        local made(share());
        detail::done(lxr_mutator_array_new(share().handle, made.at_, length));
        return local_array(std::move(made));
    }

    /// So many new words of 0, up to 1,023.
    [[nodiscard]] local_words make_words(std::uint32_t length) {
        local made(share());
        detail::done(lxr_mutator_words_new(share().handle, made.at_, length));
        return local_words(std::move(made));
    }

    /// As `make_array`, but a nil array where the heap is full.
    [[nodiscard]] local_array try_make_array(std::uint32_t length) {
        local made(share());
        const lxr_code code = lxr_mutator_array_new(share().handle, made.at_, length);
        return local_array(made_or_nil(std::move(made), code));
    }

    /// As `make_words`, but nil words where the heap is full.
    [[nodiscard]] local_words try_make_words(std::uint32_t length) {
        local made(share());
        const lxr_code code = lxr_mutator_words_new(share().handle, made.at_, length);
        return local_words(made_or_nil(std::move(made), code));
    }

    /// As `make_with`, but a nil local where the heap is full.
    [[nodiscard]] local try_make_with(local_list refs, word_list words) {
        local made(share());
        const lxr_code code = share().make_with(made.at_, made.registers_of(refs, errc::size), words);
        return made_or_nil(std::move(made), code);
    }

    /// As `make`, but a nil local where the heap is full.
    [[nodiscard]] local try_make(std::uint32_t refs, std::uint32_t words) {
        local made(share());
        const lxr_code code = lxr_mutator_new(share().handle, made.at_, refs, words);
        return made_or_nil(std::move(made), code);
    }

    /// The first `count` registers stay in use: locals that have one behind them are nil from now on. Locals take the first register that is
    /// free, and give it back as they end, so a mutator whose locals come and go needs no such call.
    void registers_in_use(std::uint32_t count) { detail::done(lxr_mutator_registers_in_use(share().handle, count)); }

    /// A pause, which all mutators take part in that don't rest.
    void pause() { detail::done(lxr_mutator_pause(share().handle)); }

    /// A pause that leaves exactly what can be reached.
    void collect() { detail::done(lxr_mutator_collect(share().handle)); }

    /// A pause in which memory of blocks that are wholly free then goes back to the system: `collect` before it gives most.
    void trim() { detail::done(lxr_mutator_trim(share().handle)); }

    /// Takes part in a pause where one is wanted: for loops that call nothing else for long.
    void poll() { detail::done(lxr_mutator_poll(share().handle)); }

private:
    friend class resting;
    friend class shared_batch;

    detail::share& share() const {
        if (!share_) throw error(errc::no_heap);
        return *share_;
    }

    static local made_or_nil(local made, lxr_code code) {
        if (code == LXR_E_FULL) return local();
        detail::done(code);
        return made;
    }

    std::unique_ptr<detail::share> share_;
};

/// Operations of a mutator, in order, as a `batch` has them: pauses may come between, and other threads see what is done so far. It doesn't
/// outlive the mutator.
class shared_batch : public detail::operations<shared_batch, local, detail::share> {
public:
    explicit shared_batch(mutator& mutator) : operations(mutator.share()) {}

    /// As `local::exchange`: `dest` holds what the reference was.
    shared_batch& exchange(local& dest, const local& base, std::uint32_t index, const local& desired) {
        const std::uint32_t at = of(base), source = of(desired);  // before `dest` gets a register, since it may be one of them
        return add(LXR_OP_SWAP, own(dest), at, index, source);
    }

    /// As `local::fetch_add`: what the word was is told.
    shared_batch& fetch_add(const local& base, std::uint32_t index, std::uint64_t word) {
        return add(LXR_OP_ADD, of(base), index, 0, word);
    }
};

/// While it lives, its mutator holds up no pause, and its thread may block. No call is made for the mutator then: `errc::rests`. A local of
/// it that ends lets go of its object once its register is used again.
class [[nodiscard]] resting {
public:
    explicit resting(mutator& mutator) : share_(mutator.share()) {
        detail::done(lxr_mutator_rest(share_.handle));
        share_.rests = true;
    }
    resting(const resting&) = delete;
    resting& operator=(const resting&) = delete;
    ~resting() {
        share_.rests = false;
        lxr_mutator_wake(share_.handle);
    }

private:
    detail::share& share_;
};

}  // namespace lxr

#endif
