// heap.cpp: tests of lxr.hpp. SPDX: MIT OR Apache-2.0
#include "lxr.hpp"

#include <array>
#include <cstdint>
#include <iostream>
#include <stdexcept>
#include <string>
#include <type_traits>
#include <utility>
#include <vector>

static_assert(!std::is_copy_constructible_v<lxr::heap> && !std::is_copy_assignable_v<lxr::heap>);
static_assert(std::is_nothrow_move_constructible_v<lxr::heap> && std::is_nothrow_move_assignable_v<lxr::heap>);
static_assert(!std::is_copy_constructible_v<lxr::root> && !std::is_copy_assignable_v<lxr::root>);
static_assert(std::is_nothrow_move_constructible_v<lxr::root> && std::is_nothrow_move_assignable_v<lxr::root>);
static_assert(std::is_nothrow_destructible_v<lxr::heap> && std::is_nothrow_destructible_v<lxr::root>);

namespace {

int checks = 0;

void check(bool holds, const char* what, int line) {
    ++checks;
    if (!holds) throw std::logic_error("heap.cpp:" + std::to_string(line) + ": " + what);
}

#define CHECK(what) check(static_cast<bool>(what), #what, __LINE__)

/// Whether a call throws an error of such a code.
template <typename Call> bool throws(lxr::errc code, Call call) {
    try {
        call();
    } catch (const lxr::error& thrown) {
        return thrown.reason() == code && thrown.code() == code && thrown.code().category() == lxr::category();
    }
    return false;
}

/// A list of the numbers from 0 to below an end, the last one first.
lxr::root list_of(lxr::heap& heap, std::uint64_t end) {
    lxr::root list;
    for (std::uint64_t number = 0; number < end; ++number) {
        lxr::root pair = heap.make(1, 1);
        pair.put(0, number);
        pair.store(0, list);
        list = std::move(pair);
    }
    return list;
}

void lists() {
    lxr::heap heap(2);
    lxr::root list = list_of(heap, 200);
    for (int garbage = 0; garbage < 20000; ++garbage) (void)heap.make(1, 8);
    CHECK(heap.pauses() > 0);
    lxr::root at = list.copy();
    CHECK(at.same(list));
    for (std::uint64_t number = 200; number-- > 0; at.load_from(at, 0)) CHECK(at.get(0) == number);
    CHECK(!at);
    heap.collect();
    CHECK(heap.live() == 200);
    list.reset();
    heap.collect();
    CHECK(heap.live() == 0 && heap.dead() + heap.swept() == 200);
}

void roots() {
    lxr::heap heap(1);
    std::vector<lxr::root> held;
    for (int at = 0; at < 14; ++at) held.push_back(heap.make(0, 1));
    CHECK(throws(lxr::errc::no_register, [&] { (void)(heap.make(0, 1)); }));
    held.pop_back();
    lxr::root made = heap.make(2, 0);
    lxr::root moved = std::move(made);
    CHECK(!made && moved);
    made = std::move(moved);
    CHECK(made && !moved && made.same(made) && moved.same(lxr::root()) && !made.same(moved));
    made.store(0, made);
    made.store(1, held.front());
    made.clear(1);
    held.clear();
    CHECK(made.load(0).same(made) && !made.load(1));
    heap.collect();
    CHECK(heap.live() == 1);
}

/// A heap with more registers has more roots; each of them holds its own object, and registers that were given back are taken again.
void many_roots() {
    lxr_settings settings LXR_SETTINGS(8, 1);
    for (std::uint32_t registers : {16u, 17u, 64u, 255u, 256u}) {
        settings.registers = registers;
        lxr::heap heap(settings);
        std::vector<lxr::root> held;
        for (std::uint64_t at = 0; at < registers - 2; ++at) held.push_back(heap.make_with({}, {at}));
        CHECK(throws(lxr::errc::no_register, [&] { (void)heap.make(0, 1); }));
        heap.collect();
        for (std::uint64_t at = 0; at < held.size(); ++at) CHECK(held[at].get(0) == at);
        held[5].reset();
        held[2].reset();
        held[2] = heap.make_with({}, {100});
        held[5] = heap.make_with({}, {101});
        CHECK(throws(lxr::errc::no_register, [&] { (void)heap.make(0, 1); }));
        CHECK(held[2].get(0) == 100 && held[5].get(0) == 101 && held[3].get(0) == 3);
        heap.registers_in_use(4);
        CHECK(held[1].get(0) == 1 && held[2].get(0) == 100 && !held[3] && !held.back());
        CHECK(throws(lxr::errc::no_register, [&] { heap.registers_in_use(0); }));
        CHECK(throws(lxr::errc::no_register, [&] { heap.registers_in_use(registers + 1); }));
        held.clear();
        heap.collect();
        CHECK(heap.live() == 0);
    }
    for (std::uint32_t registers : {1u, 15u, 257u}) {
        settings.registers = registers;
        CHECK(throws(lxr::errc::size, [&] { lxr::heap none(settings); }));
    }
    settings.registers = 0;
    lxr::heap heap(settings);
    std::vector<lxr::root> held;
    for (int at = 0; at < 14; ++at) held.push_back(heap.make(0, 1));
    CHECK(throws(lxr::errc::no_register, [&] { (void)heap.make(0, 1); }));
}

void world() {
    lxr::heap heap(1);
    CHECK(heap.world().shape().refs == LXR_WORLD_REFS);
    {
        lxr::root kept = heap.make(0, 1);
        kept.put(0, 9);
        heap.world().store(63, kept);
    }
    heap.collect();
    lxr::root world = heap.world();
    world.load_from(world, 63);
    CHECK(world.get(0) == 9);
    CHECK(heap.world().load(63).same(world));
}

/// Objects with their fields: of braces, of vectors and of arrays; a nil root is a nil reference.
void made_with_fields() {
    lxr::heap heap(2);
    lxr::root list;
    for (std::uint64_t number = 0; number < 100; ++number) list = heap.make_with({list}, {number, number * number});
    heap.collect();
    CHECK(heap.live() == 100);
    for (std::uint64_t number = 100; number-- > 0; list.load_from(list, 0)) CHECK(list.get(1) == number * number && list.get(0) == number);
    CHECK(!list);
    const std::vector<std::uint64_t> words{5, 6, 7};
    std::array<lxr::root, 3> roots{heap.make_with({}, words), lxr::root(), heap.make_with({}, {8})};
    const lxr::root tree = heap.make_with(roots, {words.data() + 1, 2});
    CHECK(tree.shape().refs == 3 && tree.shape().words == 2 && tree.get(0) == 6 && tree.get(1) == 7);
    CHECK(tree.load(0).same(roots[0]) && !tree.load(1) && tree.load(2).get(0) == 8);
    const lxr::root empty = heap.try_make_with({}, {});
    CHECK(empty && empty.shape().refs == 0 && empty.shape().words == 0);
    CHECK(heap.make_with({}, std::vector<std::uint64_t>(1023)).shape().words == 1023);
    CHECK(throws(lxr::errc::size, [&] { (void)heap.make_with({}, std::vector<std::uint64_t>(1024)); }));
    CHECK(throws(lxr::errc::size, [&] { (void)heap.make_with(std::vector<lxr::root>(1024), {}); }));
    lxr::heap other(1);
    CHECK(throws(lxr::errc::no_register, [&] { (void)other.make_with({tree}, {}); }));
    CHECK(other.try_make_with({}, std::vector<std::uint64_t>(1023)));
}

/// Fields that are read and written together.
void many_fields() {
    lxr::heap heap(2);
    lxr::root left = heap.make_with({}, {1}), right = heap.make_with({}, {2});
    lxr::root node = heap.make(3, 5);
    node.store_many(1, {left, right});
    node.put_many(1, {10, 11, 12});
    heap.collect();
    const auto [none, first, second] = node.load_many<3>(0);
    CHECK(!none && first.same(left) && second.same(right));
    const auto [zero, ten] = node.get_many<2>(0);
    CHECK(zero == 0 && ten == 10);
    std::vector<std::uint64_t> found(4);
    node.get_many(1, found);
    CHECK((found == std::vector<std::uint64_t>{10, 11, 12, 0}));
    node.put_many(2, {found.data(), 2});
    CHECK(node.get(2) == 10 && node.get(3) == 11 && node.get(4) == 0);
    node.store_many(0, std::array<lxr::root, 2>{right.copy(), lxr::root()});
    CHECK(node.load(0).same(right) && !node.load(1));
    lxr::root seen;
    node.load_many(0, {seen, left, node});
    CHECK(seen.same(right) && !left && node.same(right));
    found.clear();
    node.get_many(1, found);
    node.put_many(1, {});
    node.store_many(0, {});
    node.load_many(0, {});
}

void errors_of_many() {
    lxr::heap heap(1), other(1);
    lxr::root pair = heap.make(2, 2), elsewhere = other.make(0, 0);
    CHECK(throws(lxr::errc::index, [&] { pair.put_many(1, {1, 2}); }));
    CHECK(throws(lxr::errc::index, [&] { (void)pair.get_many<3>(0); }));
    CHECK(throws(lxr::errc::index, [&] { pair.put_many(3, {}); }));
    CHECK(throws(lxr::errc::index, [&] { (void)pair.load_many<2>(1); }));
    CHECK(throws(lxr::errc::index, [&] { pair.store_many(0, {pair, pair, pair}); }));
    CHECK(throws(lxr::errc::index, [&] { pair.store_many(0, std::vector<lxr::root>(1024)); }));
    CHECK(throws(lxr::errc::no_register, [&] { pair.store_many(0, {pair, elsewhere}); }));
    CHECK(throws(lxr::errc::no_register, [&] { pair.load_many(0, {pair, pair}); }));
    CHECK(throws(lxr::errc::no_register, [&] { (void)pair.load_many<14>(0); }));
    CHECK(throws(lxr::errc::nil, [&] { lxr::root().put_many(0, {}); }));
    CHECK(pair.get(1) == 0 && !pair.load(0));
}

void batches() {
    lxr::heap heap(1), other(1);
    lxr::root list = heap.make(1, 1), pair, none;
    lxr::batch batch(heap);
    batch.make(pair, 1, 1).put(pair, 0, 7).store(pair, 0, list).copy(list, pair).get(list, 0).same(list, pair).nil(pair).is_nil(pair);
    batch.load(pair, list, 0).is_nil(pair);
    CHECK(batch.size() == 10 && batch.done() == 0);
    for (int round = 0; round < 3; ++round) {
        batch.run();
        CHECK(batch.done() == 10 && batch.told(4) == 7 && batch.told(5) == 1 && batch.told(7) == 1 && batch.told(9) == 0);
    }
    heap.collect();
    CHECK(heap.live() == 4);
    batch.clear();
    batch.put(list, 0, 8).get(none, 0).put(list, 0, 9);
    CHECK(throws(lxr::errc::nil, [&] { batch.run(); }));
    CHECK(batch.done() == 1 && list.get(0) == 8);
    batch.clear();
    batch.run();
    CHECK(batch.done() == 0);
    batch.put(list, 0, 9).make(pair, 1024, 0);
    CHECK(throws(lxr::errc::size, [&] { batch.run(); }));
    CHECK(batch.done() == 0 && list.get(0) == 8);
    const lxr::root elsewhere = other.make(0, 1);
    CHECK(throws(lxr::errc::no_register, [&] { batch.get(elsewhere, 0); }));
}

void large_objects() {
    lxr::heap heap(1, 5);
    lxr::root body = heap.make_large(2);
    std::vector<std::uint64_t> words(5000, 3), found(5000);
    CHECK(body.shape().blocks == 2);
    body.body_write(3000, words.data(), words.size());
    body.body_put(3001, 4);
    body.body_read(3000, found.data(), found.size());
    CHECK(found[0] == 3 && found[1] == 4 && found[4999] == 3 && body.body_get(2999) == 0);
    CHECK(throws(lxr::errc::index, [&] { (void)(body.body_write(3193, words.data(), words.size())); }));
    CHECK(throws(lxr::errc::full, [&] { (void)(heap.make_large(4)); }));
    CHECK(!heap.try_make_large(4) && heap.try_make_large(3));
    CHECK(heap.free_body_bytes() == 0);
}

void errors() {
    lxr::heap heap(1), other(1);
    lxr::root nil, pair = heap.make(1, 1), foreign = other.make(1, 1);
    CHECK(throws(lxr::errc::size, [] { lxr::heap none(0); }));
    CHECK(throws(lxr::errc::size, [&] { (void)(heap.make(1024, 0)); }));
    CHECK(throws(lxr::errc::nil, [&] { (void)(nil.load(0)); }));
    CHECK(throws(lxr::errc::nil, [&] { (void)(pair.load(0).get(0)); }));
    CHECK(throws(lxr::errc::index, [&] { (void)(pair.get(1)); }));
    CHECK(throws(lxr::errc::index, [&] { (void)(pair.load(1)); }));
    CHECK(throws(lxr::errc::no_register, [&] { (void)(pair.store(0, foreign)); }));
    CHECK(!pair.same(foreign) && !pair.load(0));
    CHECK(make_error_code(lxr::errc::full) == std::errc::not_enough_memory);
    CHECK(lxr::error(lxr::errc::full).code().message() == lxr_message(LXR_E_FULL));
}

void moved_heaps() {
    lxr::heap heap(1);
    lxr::root kept = heap.make(0, 1);
    kept.put(0, 5);
    lxr::heap moved = std::move(heap);
    CHECK(throws(lxr::errc::no_heap, [&] { (void)(heap.make(0, 0)); }));
    moved.collect();
    CHECK(moved.live() == 1 && kept.get(0) == 5);
    kept.reset();
    moved = lxr::heap(2);
    CHECK(moved.live() == 0 && moved.free_blocks() == 1);
}

void full_heaps() {
    lxr::heap heap(1);
    lxr::root list;
    std::uint64_t made = 0;
    for (lxr::root pair; made < 1000 && (pair = heap.try_make(1, 30)); ++made) {
        pair.store(0, list);
        list = std::move(pair);
    }
    CHECK(made == 125 && heap.live() == made);
    heap.set_pace(160);
    list.reset();
    CHECK(heap.try_make(1023, 1023));
}

/// The room is set up to what is reserved, and by a collecting pause to twice what it leaves, but at least 64 blocks.
void rooms() {
    lxr::heap heap(200);
    CHECK(heap.room() == 200);
    heap.set_room(7);
    CHECK(heap.room() == 7);
    CHECK(throws(lxr::errc::size, [&] { heap.set_room(201); }));
    CHECK(throws(lxr::errc::size, [&] { heap.set_grow(LXR_MOST_GROW + 1); }));
    heap.collect();
    CHECK(heap.room() == 64);
    heap.set_grow(0);
    heap.set_room(0);
    heap.collect();
    CHECK(heap.room() == 200);
}

/// What is kept stays where memory goes back, and new objects have nil references and zeros.
void trims() {
    lxr::heap heap(200);
    heap.trim();
    auto kept = heap.make(1, 2);
    kept.put(1, 7);
    for (int made = 0; made < 20000; ++made) heap.make(2, 20).put(19, ~std::uint64_t{0});
    heap.collect();
    heap.trim();
    CHECK(heap.live() == 1 && kept.get(1) == 7);
    for (int made = 0; made < 20000; ++made) CHECK(heap.make(2, 20).get(19) == 0);
}

/// What waits for a pause is done where it is asked for, and the pause counts it.
void work_before_a_pause() {
    lxr::heap heap(64);
    heap.set_pace(LXR_PACE_NEVER);
    heap.set_work(0);
    CHECK(throws(lxr::errc::size, [&] { heap.set_work(LXR_MOST_WORK + 1); }));
    lxr::root list;
    for (std::uint64_t number = 0; number < 500; ++number) list = heap.make_with({list}, {number});
    heap.pause();
    heap.pause();
    list.reset();
    heap.pause();
    CHECK(heap.waiting() > 0 && heap.live() == 500);
    int calls = 1;
    while (heap.work(10)) ++calls;
    CHECK(calls >= 50 && calls <= 51 && !heap.work(10));
    CHECK(heap.waiting() == 0 && heap.live() == 500);
    heap.pause();
    CHECK(heap.dead() == 500 && heap.live() == 0);
}

}  // namespace

int main() {
    try {
        rooms();
        trims();
        work_before_a_pause();
        lists();
        roots();
        many_roots();
        world();
        made_with_fields();
        many_fields();
        errors_of_many();
        batches();
        large_objects();
        errors();
        moved_heaps();
        full_heaps();
    } catch (const std::exception& wrong) {
        std::cerr << wrong.what() << '\n';
        return 1;
    }
    std::cout << "heap.cpp: " << checks << " checks\n";
}
