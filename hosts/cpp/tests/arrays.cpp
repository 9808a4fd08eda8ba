// arrays.cpp: tests of the arrays and words of lxr.hpp and lxr_threads.hpp. SPDX: MIT OR Apache-2.0
#include "lxr_threads.hpp"

#include <algorithm>
#include <array>
#include <atomic>
#include <cstdint>
#include <exception>
#include <iostream>
#include <iterator>
#include <numeric>
#include <stdexcept>
#include <string>
#include <thread>
#include <type_traits>
#include <utility>
#include <vector>

static_assert(!std::is_copy_constructible_v<lxr::array> && !std::is_copy_assignable_v<lxr::array>);
static_assert(std::is_nothrow_move_constructible_v<lxr::array> && std::is_nothrow_move_assignable_v<lxr::array>);
static_assert(std::is_nothrow_move_constructible_v<lxr::words> && std::is_nothrow_move_assignable_v<lxr::local_words>);
static_assert(!std::is_constructible_v<lxr::array, lxr::local> && !std::is_constructible_v<lxr::local_array, lxr::root>);
static_assert(!std::is_convertible_v<lxr::root, lxr::array>);

namespace {

std::atomic<int> checks{0};

void check(bool holds, const char* what, int line) {
    ++checks;
    if (!holds) throw std::logic_error("arrays.cpp:" + std::to_string(line) + ": " + what);
}

#define CHECK(what) check(static_cast<bool>(what), #what, __LINE__)

/// Whether a call throws an error of such a code.
template <typename Call> bool throws(lxr::errc code, Call call) {
    try {
        call();
    } catch (const lxr::error& thrown) {
        return thrown.reason() == code;
    }
    return false;
}

constexpr std::uint32_t lengths[] = {0, 1, 2, 1022, 1023, 1024, 2046, 2047, 5000};

/// The mock of the archive below threads may say once and again that it is full.
lxr::local_array array_of(lxr::mutator& self, std::uint32_t length) {
    lxr::local_array made;
    while (!made) made = self.try_make_array(length);
    return made;
}

lxr::local_words words_of(lxr::mutator& self, std::uint32_t length) {
    lxr::local_words made;
    while (!made) made = self.try_make_words(length);
    return made;
}

lxr::array array_of(lxr::heap& heap, std::uint32_t length) { return heap.make_array(length); }

lxr::words words_of(lxr::heap& heap, std::uint32_t length) { return heap.make_words(length); }

/// What is stored in elements: an object that is known by its word.
template <typename Heap> auto known(Heap& heap, std::uint64_t word) {
    auto made = words_of(heap, 1);
    made.put(0, word);
    return std::move(made).object();
}

/// Elements of arrays of all lengths, looked at one by one and in a range.
template <typename Heap> void elements(Heap& heap) {
    const auto seven = known(heap, 7), eight = known(heap, 8);
    for (const std::uint32_t length : lengths) {
        auto table = array_of(heap, length);
        CHECK(table && table.size() == length && table.empty() == (length == 0));
        CHECK(std::all_of(table.begin(), table.end(), [](const auto& element) { return !element; }));
        table.fill(seven);
        if (length > 2) table.fill(length - 2, 1, eight);
        std::uint32_t at = 0;
        for (const auto& element : table) CHECK(element.get(0) == (length > 2 && at++ == length - 2 ? 8u : 7u));
        CHECK(std::distance(table.begin(), table.end()) == static_cast<std::ptrdiff_t>(length));
        if (length > 0) {
            table.clear(length - 1);
            CHECK(!table.load(length - 1));
            table.store(0, eight);
            CHECK(table.load(0).same(eight));
        }
        CHECK(throws(lxr::errc::index, [&] { (void)table.load(length); }));
        CHECK(throws(lxr::errc::index, [&] { table.store(length, seven); }));
        CHECK(throws(lxr::errc::index, [&] { table.fill(1, length, seven); }));
    }
}

/// Copies whose elements overlap, held against those of a vector of numbers.
template <typename Heap> void copies(Heap& heap) {
    constexpr std::uint32_t length = 3000;
    auto table = array_of(heap, length);
    std::vector<std::uint64_t> wanted(length);
    std::iota(wanted.begin(), wanted.end(), 0);
    for (std::uint32_t at = 0; at < length; ++at) table.store(at, known(heap, at));
    const std::array<std::array<std::uint32_t, 3>, 4> moves{{{1, 0, 2999}, {0, 3, 2990}, {1020, 1023, 1100}, {2045, 20, 900}}};
    for (const auto& [at, first, count] : moves) {
        table.copy_from(at, table, first, count);
        const std::vector<std::uint64_t> before = wanted;
        std::copy_n(before.begin() + first, count, wanted.begin() + at);
    }
    CHECK(std::equal(table.begin(), table.end(), wanted.begin(), wanted.end(),
                     [](const auto& element, std::uint64_t number) { return element.get(0) == number; }));
    auto other = array_of(heap, 10);
    other.copy_from(2, table, 1020, 8);
    CHECK(!other.load(1) && other.load(2).same(table.load(1020)) && other.load(9).same(table.load(1027)));
    CHECK(throws(lxr::errc::index, [&] { other.copy_from(3, table, 1020, 8); }));
    CHECK(throws(lxr::errc::index, [&] { table.copy_from(2999, table, 0, 2); }));
    CHECK(throws(lxr::errc::nil, [&] { table.copy_from(0, decltype(other)(), 0, 0); }));
}

/// Words that are read and written in spans and one by one.
template <typename Heap> void words(Heap& heap, std::uint32_t most) {
    for (const std::uint32_t length : lengths) {
        if (length > most) continue;
        auto text = words_of(heap, length);
        std::vector<std::uint64_t> numbers(length);
        CHECK(text.size() == length && text.read() == numbers);
        std::iota(numbers.begin(), numbers.end(), 100);
        text.write(0, numbers);
        CHECK(text.read() == numbers && std::equal(text.begin(), text.end(), numbers.begin(), numbers.end()));
        CHECK(throws(lxr::errc::index, [&] { text.write(1, numbers.empty() ? std::vector<std::uint64_t>{1} : numbers); }));
        CHECK(throws(lxr::errc::index, [&] { (void)text.get(length); }));
        if (length < 3) continue;
        text.put(length - 1, 5);
        std::array<std::uint64_t, 2> end{};
        text.read(length - 2, end);
        CHECK(end[0] == 98 + length && end[1] == 5);
        text.write(0, {8, 9});
        CHECK(text.get(0) == 8 && text.get(1) == 9 && text.get(2) == 102);
        CHECK(throws(lxr::errc::index, [&] { text.read(length - 1, end); }));
        CHECK(end[1] == 5);
    }
    CHECK(throws(lxr::errc::size, [&] { (void)heap.make_words(most + 1); }));
    CHECK(throws(lxr::errc::size, [&] { (void)heap.make_array(LXR_MOST_ELEMENTS + 1); }));
}

/// Arrays are objects: they are stored, kept, and taken for arrays again.
void objects() {
    lxr::heap heap(64);
    {
        lxr::array table = heap.make_array(5000);
        table.store(4999, known(heap, 3));
        heap.world().store(0, table.object());
    }
    heap.collect();
    CHECK(heap.live() == 7);
    lxr::array table(heap.world().load(0));
    CHECK(table.size() == 5000 && table.load(4999).get(0) == 3);
    lxr::array moved = std::move(table);
    CHECK(!table && moved && throws(lxr::errc::nil, [&] { (void)table.size(); }));
    heap.world().clear(0);
    CHECK(std::move(moved).object().shape().refs == 5);
    CHECK(lxr::array(heap.world()).size() == LXR_WORLD_REFS);
    lxr::heap other(8);
    lxr::array elsewhere = other.make_array(3);
    CHECK(throws(lxr::errc::no_register, [&] { elsewhere.store(0, heap.world()); }));
    CHECK(throws(lxr::errc::no_register, [&] { elsewhere.fill(heap.world()); }));
    CHECK(throws(lxr::errc::no_register, [&] { elsewhere.copy_from(0, lxr::array(heap.world()), 0, 1); }));
    heap.collect();
    CHECK(heap.live() == 0);
}

/// Threads swap objects into one array: in the end each is in one place.
void exchanges() {
    constexpr std::uint32_t places = 1030, threads = 4, mine = 8;
    lxr::shared_heap heap(64, threads + 1);
    lxr::mutator self(heap);
    self.world().store(0, array_of(self, places).object());
    {
        const lxr::resting rest(self);
        std::vector<std::exception_ptr> thrown(threads);
        std::vector<std::thread> running;
        for (std::uint32_t number = 0; number < threads; ++number) {
            running.emplace_back([&heap, &thrown, number] {
                try {
                    lxr::mutator other(heap);
                    lxr::local_array table(other.world().load(0));
                    for (std::uint32_t at = 0; at < mine; ++at) {
                        lxr::local held = known(other, number * mine + at + 1);
                        for (std::uint32_t place = 1020; held; place = place == places - 1 ? 900 : place + 1)
                            held = table.exchange(place, held);
                    }
                } catch (...) {
                    thrown[number] = std::current_exception();
                }
            });
        }
        for (std::thread& thread : running) thread.join();
        for (const std::exception_ptr& exception : thrown)
            if (exception) std::rethrow_exception(exception);
    }
    std::vector<std::uint64_t> found;
    for (const lxr::local& element : lxr::local_array(self.world().load(0)))
        if (element) found.push_back(element.get(0));
    std::sort(found.begin(), found.end());
    std::vector<std::uint64_t> wanted(threads * mine);
    std::iota(wanted.begin(), wanted.end(), 1);
    CHECK(found == wanted);
}

}  // namespace

int main() {
    try {
        lxr::heap heap(64, 8);
        elements(heap);
        copies(heap);
        words(heap, LXR_MOST_LENGTH);
        objects();
        lxr::shared_heap shared(64, 1);
        lxr::mutator self(shared);
        elements(self);
        copies(self);
        words(self, LXR_MOST_WORDS);
        exchanges();
    } catch (const std::exception& wrong) {
        std::cerr << wrong.what() << '\n';
        return 1;
    }
    std::cout << "arrays.cpp: " << checks << " checks\n";
}
