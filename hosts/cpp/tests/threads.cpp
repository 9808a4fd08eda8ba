// threads.cpp: tests of lxr_threads.hpp. SPDX: MIT OR Apache-2.0
#include "lxr_threads.hpp"

#include <algorithm>
#include <atomic>
#include <cstdint>
#include <exception>
#include <iostream>
#include <stdexcept>
#include <string>
#include <thread>
#include <type_traits>
#include <utility>
#include <vector>

static_assert(!std::is_copy_constructible_v<lxr::shared_heap> && !std::is_copy_assignable_v<lxr::shared_heap>);
static_assert(std::is_nothrow_move_constructible_v<lxr::shared_heap> && std::is_nothrow_move_assignable_v<lxr::shared_heap>);
static_assert(!std::is_copy_constructible_v<lxr::mutator> && !std::is_copy_assignable_v<lxr::mutator>);
static_assert(std::is_nothrow_move_constructible_v<lxr::mutator> && std::is_nothrow_move_assignable_v<lxr::mutator>);
static_assert(!std::is_copy_constructible_v<lxr::local> && !std::is_copy_assignable_v<lxr::local>);
static_assert(std::is_nothrow_move_constructible_v<lxr::local> && std::is_nothrow_move_assignable_v<lxr::local>);
static_assert(!std::is_move_constructible_v<lxr::resting> && !std::is_copy_constructible_v<lxr::resting>);
static_assert(std::is_nothrow_destructible_v<lxr::mutator> && std::is_nothrow_destructible_v<lxr::local>);

namespace {

std::atomic<int> checks{0};

void check(bool holds, const char* what, int line) {
    ++checks;
    if (!holds) throw std::logic_error("threads.cpp:" + std::to_string(line) + ": " + what);
}

#define CHECK(what) check(static_cast<bool>(what), #what, __LINE__)

/// Whether a call throws an error of such a code.
template <typename Call> bool throws(lxr::errc code, Call call) {
    try {
        call();
    } catch (const lxr::error& thrown) {
        return thrown.reason() == code && thrown.code() == code && thrown.code().category() == lxr::category();
    }
    return false;
}

/// Runs a function on so many threads, each told its number, and throws what the first of them threw.
template <typename Work> void on_threads(unsigned count, Work work) {
    std::vector<std::exception_ptr> thrown(count);
    std::vector<std::thread> running;
    for (unsigned number = 0; number < count; ++number) {
        running.emplace_back([&, number] {
            try {
                work(number);
            } catch (...) {
                thrown[number] = std::current_exception();
            }
        });
    }
    for (std::thread& thread : running) thread.join();
    for (const std::exception_ptr& exception : thrown) {
        if (exception) std::rethrow_exception(exception);
    }
}

constexpr unsigned hosts = 4;
constexpr std::uint64_t rounds = 20000, listed = 100;

/// References of the world.
enum : std::uint32_t { last = 0, first = 1, counters = 2, own = 8 };

/// Each thread has a list of its own, and makes much garbage: it finds its list as it was.
void own_lists() {
    lxr::shared_heap heap(8, hosts);
    on_threads(hosts, [&](unsigned number) {
        lxr::mutator self(heap);
        lxr::local list;
        for (std::uint64_t n = 0; n < rounds; ++n) {
            lxr::local pair = self.make(1, 2);
            pair.put(0, n);
            pair.put(1, number);
            if (n >= listed) continue;
            pair.store(0, list);
            list = std::move(pair);
        }
        for (std::uint64_t n = listed; n-- > 0; list.load_from(list, 0)) CHECK(list.get(0) == n && list.get(1) == number);
        CHECK(!list);
    });
    CHECK(heap.pauses() > 0);
}

/// All threads append to one queue: `exchange` puts an object at its end, and the one that stood there is linked to it.
void one_queue() {
    lxr::shared_heap heap(8, hosts + 1);
    lxr::mutator self(heap);
    {
        const lxr::local stub = self.make(1, 1);
        self.world().store(last, stub);
        self.world().store(first, stub);
    }
    {
        const lxr::resting rest(self);
        on_threads(hosts, [&](unsigned number) {
            lxr::mutator other(heap);
            for (std::uint64_t n = 0; n < rounds; ++n) {
                lxr::local node = other.make(1, 1);
                if (n % listed != 0) continue;
                node.put(0, n * hosts + number);
                other.world().exchange(last, node).store(0, node);
            }
        });
    }
    std::vector<std::uint64_t> next(hosts);
    lxr::local at = self.world().load(first).load(0);
    for (; at; at.load_from(at, 0)) {
        const std::uint64_t found = at.get(0);
        CHECK(found / hosts == next[found % hosts]);
        next[found % hosts] += listed;
    }
    for (const std::uint64_t end : next) CHECK(end == rounds);
}

/// All threads add to the same words, and each sees them grow.
void one_counter() {
    lxr::shared_heap heap(4, hosts);
    {
        lxr::mutator self(heap);
        self.world().store(counters, self.make(0, 2));
    }
    on_threads(hosts, [&](unsigned) {
        lxr::mutator self(heap);
        lxr::local counter = self.world().load(counters);
        std::uint64_t seen = 0;
        for (std::uint64_t n = 0; n < rounds; ++n) {
            const std::uint64_t found = counter.fetch_add(0, 1);
            CHECK(n == 0 || found > seen);
            seen = found;
            counter.fetch_add(1, ~std::uint64_t{0});
        }
    });
    lxr::mutator self(heap);
    const lxr::local counter = self.world().load(counters);
    CHECK(counter.get(0) == hosts * rounds && counter.get(1) == 0 - hosts * rounds);
}

/// A thread that rests holds up no pause; what its registers hold is kept.
void resting_threads() {
    lxr::shared_heap heap(4, 2);
    lxr::mutator self(heap);
    lxr::local kept = self.make(0, 1);
    kept.put(0, 6);
    const std::uint64_t before = heap.pauses();
    {
        const lxr::resting rest(self);
        CHECK(heap.entered() == 1 && heap.resting() == 1);
        std::thread([&heap] {
            lxr::mutator other(heap);
            for (int n = 0; n < 100; ++n) n % 10 == 0 ? other.collect() : other.pause();
        }).join();
        CHECK(throws(lxr::errc::rests, [&] { (void)(self.poll()); }));
        CHECK(throws(lxr::errc::rests, [&] { (void)(kept.get(0)); }));
        CHECK(throws(lxr::errc::rests, [&] { const lxr::resting again(self); }));
    }
    CHECK(heap.pauses() >= before + 100 && heap.collected() >= 10 && heap.resting() == 0 && kept.get(0) == 6);
    self.poll();
}

/// Numbers are taken, given back, and taken again, and a thread may go to another thread of the host.
void comings_and_goings() {
    lxr::shared_heap heap(4, 2);
    for (int n = 0; n < 50; ++n) {
        lxr::mutator one(heap);
        {
            lxr::local made = one.make(1, 1);
            made.put(0, 5);
            one.world().store(own, made);
        }
        const lxr::resting rest(one);
        lxr::mutator two(heap);
        CHECK(throws(lxr::errc::number, [&] { lxr::mutator three(heap); }));
        std::thread([moved = std::move(two)]() mutable {
            CHECK(moved.world().load(own).get(0) == 5);
            moved.world().clear(own);
        }).join();
        CHECK(throws(lxr::errc::no_heap, [&] { (void)(two.poll()); }));
    }
    lxr::shared_heap moved = std::move(heap);
    CHECK(throws(lxr::errc::no_heap, [&] { lxr::mutator none(heap); }));
    lxr::mutator self(moved);
    CHECK(moved.entered() == 1 && !self.world().load(own) && self.world().same(self.world()));
}

void errors() {
    lxr::shared_heap heap(1, 2);
    lxr::mutator one(heap);
    lxr::local nil, pair = one.make(1, 1);
    CHECK(throws(lxr::errc::size, [] { lxr::shared_heap none(0, 1); }));
    CHECK(throws(lxr::errc::size, [] { lxr::shared_heap none(65537, 1); }));
    CHECK(throws(lxr::errc::size, [] { lxr::shared_heap none(1, 256); }));
    CHECK(throws(lxr::errc::size, [&] { (void)(one.make(1024, 0)); }));
    CHECK(throws(lxr::errc::nil, [&] { (void)(nil.fetch_add(0, 1)); }));
    CHECK(throws(lxr::errc::nil, [&] { (void)(pair.load(0).get(0)); }));
    CHECK(throws(lxr::errc::index, [&] { (void)(pair.fetch_add(1, 1)); }));
    CHECK(throws(lxr::errc::index, [&] { (void)(pair.exchange(1, nil)); }));
    CHECK(!pair.exchange(0, pair) && pair.exchange(0, nil).same(pair) && !pair.load(0));
    CHECK(pair.fetch_add(0, 3) == 0 && pair.fetch_add(0, 4) == 3 && pair.get(0) == 7);
    const lxr::resting rest(one);
    lxr::mutator two(heap);
    lxr::local other = two.make(1, 1);
    CHECK(throws(lxr::errc::rests, [&] { (void)(other.exchange(0, pair)); }));
    CHECK(!other.load(0) && !other.exchange(0, nil));
    CHECK(make_error_code(lxr::errc::number) == std::errc::resource_unavailable_try_again);
    CHECK(lxr::error(lxr::errc::rests).code().message() == lxr_message(LXR_E_RESTS));
}

/// Plain pauses come by bytes of new objects: each has 32.
void paces() {
    for (const std::uint64_t pace : {std::uint64_t{LXR_PACE_NEVER}, std::uint64_t{LXR_PACE_ROOM}, std::uint64_t{4096}}) {
        lxr_shared_heap_settings settings = LXR_SHARED_HEAP_SETTINGS(64, 1);
        settings.pace = pace;
        const lxr::shared_heap heap(settings);
        lxr::mutator self(heap);
        for (int made = 0; made < 1280; ++made) (void)self.make(1, 1);
        CHECK(heap.pauses() == (pace == 4096 ? 10 : 0));
    }
}

/// The room is set up to what is reserved, and by a collecting pause to twice what it leaves, but at least 64 blocks.
void rooms() {
    lxr::shared_heap heap(200, 1);
    CHECK(heap.room() == 200);
    heap.set_room(7);
    CHECK(heap.room() == 7);
    CHECK(throws(lxr::errc::size, [&] { heap.set_room(201); }));
    CHECK(throws(lxr::errc::size, [&] { heap.set_grow(LXR_MOST_GROW + 1); }));
    lxr::mutator self(heap);
    self.collect();
    CHECK(heap.room() == 64 && heap.free_blocks() >= 198);
}

/// By the header's settings an eighth of the blocks is evacuated at most, and at most 64; and any number up to an eighth will do.
void evacuates() {
    for (const std::uint32_t blocks : {1U, 8U, 500U, 600U, 1500U}) {
        lxr_shared_heap_settings settings = LXR_SHARED_HEAP_SETTINGS(blocks, 255);
        CHECK(settings.evacuate == std::min(blocks / 8, 64U));
        for (const std::uint32_t evacuate : {0U, settings.evacuate, blocks / 8}) {
            settings.evacuate = evacuate;
            const lxr::shared_heap heap(settings);
            lxr::mutator self(heap);
            self.collect();
            CHECK(heap.collected() == 1);
        }
        settings.evacuate = blocks / 8 + 1;
        CHECK(throws(lxr::errc::size, [&] { lxr::shared_heap none(settings); }));
    }
}

/// A large heap lists as many runs as the settings say, at least 64.
void runs() {
    lxr_shared_heap_settings settings = LXR_SHARED_HEAP_SETTINGS(1100, 1);
    CHECK(settings.runs == 0);
    for (const std::uint32_t most : {0U, 1U, 63U, 64U, 1000U, UINT32_MAX}) {
        settings.runs = most;
        if (most > 0 && most < LXR_LEAST_RUNS) {
            CHECK(throws(lxr::errc::size, [&] { lxr::shared_heap none(settings); }));
            continue;
        }
        const lxr::shared_heap heap(settings);
        lxr::mutator self(heap);
        self.collect();
        CHECK(heap.free_blocks() >= 1098);
    }
}

/// As many registers as the settings say: all but two of them are for locals, and those that are in use no more are nil.
void registers() {
    lxr_shared_heap_settings settings = LXR_SHARED_HEAP_SETTINGS(8, 2);
    CHECK(settings.registers == 16);
    for (const std::uint32_t registers : {0U, 16U, 17U, 64U, 256U}) {
        settings.registers = registers;
        const std::uint32_t count = registers == 0 ? 16 : registers;
        const lxr::shared_heap heap(settings);
        lxr::mutator self(heap);
        std::vector<lxr::local> held;
        for (std::uint64_t at = 0; at < count - 2; ++at) held.push_back(self.make_with({}, {at}));
        CHECK(throws(lxr::errc::no_register, [&] { (void)self.make(0, 1); }));
        self.collect();
        for (std::uint64_t at = 0; at < held.size(); ++at) CHECK(held[at].get(0) == at);
        self.registers_in_use(4);
        CHECK(held[2].get(0) == 2 && !held[3] && !held.back());
        CHECK(throws(lxr::errc::no_register, [&] { self.registers_in_use(0); }));
        CHECK(throws(lxr::errc::no_register, [&] { self.registers_in_use(count + 1); }));
    }
    for (const std::uint32_t wrong : {1U, 15U, 257U}) {
        settings.registers = wrong;
        CHECK(throws(lxr::errc::size, [&] { lxr::shared_heap none(settings); }));
    }
}

/// Lists whose objects are made with their fields, beside other threads; and operations in a row.
void several_at_once() {
    lxr::shared_heap heap(8, hosts);
    on_threads(hosts, [&](unsigned number) {
        lxr::mutator self(heap);
        lxr::local list, found;
        lxr::shared_batch batch(self);
        batch.make(found, 1, 2).put(found, 1, 5).fetch_add(found, 1, number).exchange(found, found, 0, found).is_nil(found);
        for (std::uint64_t n = 0; n < rounds; ++n) {
            const lxr::local pair = self.make_with({list}, {n, number});
            if (n < listed) list = pair.copy();
            if (n % listed) continue;
            batch.run();
            CHECK(batch.done() == 5 && batch.told(2) == 5 && batch.told(4) == 1);
        }
        for (std::uint64_t n = listed; n-- > 0; list.load_many(0, {list})) {
            const auto [first_word, second_word] = list.get_many<2>(0);
            CHECK(first_word == n && second_word == number);
        }
        CHECK(!list);
    });
    lxr::mutator self(heap);
    lxr::local node = self.make(2, 2);
    node.store_many(0, {node, self.world()});
    node.put_many(0, {3, 4});
    const auto [itself, world] = node.load_many<2>(0);
    CHECK(itself.same(node) && world.same(self.world()) && node.get(1) == 4);
    CHECK(self.try_make_with({node}, {}) && self.try_make_with({}, {}));
    CHECK(throws(lxr::errc::size, [&] { (void)self.make_with({}, std::vector<std::uint64_t>(1024)); }));
    CHECK(throws(lxr::errc::index, [&] { node.put_many(0, {5, 6, 7}); }));
    CHECK(node.get(0) == 5 && node.get(1) == 6);
}

/// Each thread holds as much as there is room for: the heap is full for all of them, and has room again.
void full_heaps() {
    lxr::shared_heap heap(2, hosts);
    on_threads(hosts, [&](unsigned) {
        lxr::mutator self(heap);
        for (int round = 0; round < 3; ++round) {
            lxr::local list;
            std::uint64_t made = 0;
            for (lxr::local pair; made < 1000 && (pair = self.try_make(1, 30)); ++made) {
                pair.store(0, list);
                list = std::move(pair);
            }
            for (; list; list.load_from(list, 0)) --made;
            CHECK(made == 0);
        }
    });
    lxr::mutator self(heap);
    self.collect();
    CHECK(heap.last_kind() == lxr::pause_kind::collect);
    CHECK(self.try_make(1000, 1000));
}

/// Memory goes back while a thread works: what is kept stays, and new objects are nil and 0 where others lay.
void trims() {
    lxr::shared_heap heap(100, 2);
    std::thread other([&] {
        lxr::mutator mutator(heap);
        auto kept = mutator.make(1, 1);
        kept.put(0, 7);
        for (int n = 0; n < 3000; ++n) {
            auto made = mutator.make(1, 100);
            CHECK(!made.load(0) && made.get(99) == 0);
            made.put(99, 5);
            made.store(0, kept);
        }
        CHECK(kept.get(0) == 7);
    });
    for (int n = 0; n < 20; ++n) {
        lxr::mutator mutator(heap);
        const auto before = heap.pauses();
        mutator.trim();
        CHECK(heap.pauses() > before);
    }
    other.join();
}

}  // namespace

int main() {
    try {
        own_lists();
        one_queue();
        one_counter();
        several_at_once();
        resting_threads();
        comings_and_goings();
        errors();
        paces();
        rooms();
        evacuates();
        runs();
        registers();
        full_heaps();
        trims();
    } catch (const std::exception& wrong) {
        std::cerr << wrong.what() << '\n';
        return 1;
    }
    std::cout << "threads.cpp: " << checks << " checks\n";
}
