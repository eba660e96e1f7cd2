// A model in C++ that never says dym_touch: stores.h says what is in it. What an object holds here is written by code of headers alone.
#include "stores.h"

#include <algorithm>
#include <array>
#include <atomic>
#include <charconv>
#include <cmath>
#include <cstring>
#include <memory_resource>
#include <new>
#include <numeric>
#include <optional>
#include <stdexcept>
#include <string>
#include <tuple>
#include <utility>
#include <variant>
#include <vector>

namespace {

struct shape {
    virtual ~shape() = default;
    virtual int corners() const = 0;
};
struct triangle final : shape {
    int corners() const override { return 3; }
};
struct square final : shape {
    int corners() const override { return 4; }
};

// The pointer to the virtual functions alone changes.
void class_with_virtuals(void *chunk, uint32_t draw)
{
    if (draw % 2 == 0)
        new (chunk) triangle;
    else
        new (chunk) square;
}

template <typename T> T &in(void *chunk)
{
    return *std::launder(reinterpret_cast<T *>(chunk));
}

using numbers = std::array<uint32_t, 100>;

numbers made(uint32_t draw)
{
    numbers n;
    std::iota(n.begin(), n.end(), draw);
    return n;
}
numbers (*volatile maker)(uint32_t) = made;

void made_in_place(void *chunk, uint32_t draw)
{
    new (chunk) numbers(maker(draw));
}

void array_assigned(void *chunk, uint32_t draw)
{
    in<numbers>(chunk) = maker(draw);
}

void array_filled(void *chunk, uint32_t draw)
{
    in<numbers>(chunk).fill(draw);
}

void array_sorted(void *chunk, uint32_t draw)
{
    auto &n = in<numbers>(chunk);
    if (std::is_sorted(n.begin(), n.end()))
        std::reverse(n.begin(), n.end());
    else
        std::sort(n.begin(), n.end());
    std::rotate(n.begin(), n.begin() + 1 + draw % 50, n.end());
    n[draw % n.size()] += 7;
}

void array_moved(void *chunk, uint32_t draw)
{
    auto &n = in<numbers>(chunk);
    std::copy_backward(n.begin(), n.end() - 1, n.end());
    std::swap(n[0], n[1 + draw % 90]);
    std::generate(n.begin(), n.begin() + 2, [k = draw]() mutable { return k++; });
}

void atomic_number(void *chunk, uint32_t draw)
{
    in<std::atomic<uint64_t>>(chunk).fetch_add(draw | 1, std::memory_order_relaxed);
}

void atomic_pair(void *chunk, uint32_t draw)
{
    struct pair {
        uint32_t a, b;
    };
    auto &p = in<std::atomic<pair>>(chunk);
    p.store(pair{draw, p.load().a + 1});
}

void optional_number(void *chunk, uint32_t draw)
{
    auto &o = in<std::optional<uint32_t>>(chunk);
    if (o.has_value() && draw % 3 == 0)
        o.reset();
    else
        o.emplace(draw);
}

void variant_of_three(void *chunk, uint32_t draw)
{
    using three = std::variant<uint8_t, double, std::array<uint16_t, 20>>;
    switch (draw % 3) {
    case 0: new (chunk) three(static_cast<uint8_t>(draw)); break;
    case 1: new (chunk) three(draw * 1.5); break;
    default: new (chunk) three(std::array<uint16_t, 20>{{static_cast<uint16_t>(draw), 2}}); break;
    }
}

void tuple_by_reference(void *chunk, uint32_t draw)
{
    auto &[a, b, c] = in<std::tuple<uint8_t, uint64_t, float>>(chunk);
    std::tie(a, c) = std::make_pair(static_cast<uint8_t>(a + 1), c + 1.0F);
    b ^= draw;
}

void vector_in_a_chunk(void *chunk, uint32_t draw)
{
    std::pmr::monotonic_buffer_resource room(chunk, 4096, std::pmr::null_memory_resource());
    std::pmr::vector<uint32_t> v(&room);
    for (uint32_t k = 0; k < 50 + draw % 50; k++) v.push_back(draw + k);
    v.insert(v.begin() + 5, 3, draw);
    v.erase(v.begin() + 10, v.begin() + 20);
}

// Short enough to lie in the chunk itself.
void short_string(void *chunk, uint32_t draw)
{
    auto &s = in<std::string>(chunk);
    if (s.data() == nullptr) new (chunk) std::string;
    if (s.size() > 8) s.erase(draw % 3, 5);
    switch (draw % 5) {
    case 0: s += static_cast<char>('a' + draw % 26); break;
    case 1: s.insert(s.size() / 2, "bc"); break;
    case 2: s.assign(draw % 9, static_cast<char>('a' + draw % 26)); break;
    case 3: s = std::to_string(draw % 1000); break;
    default: s.replace(0, s.size() / 2, "xyz"); break;
    }
}

void stored_by_a_handler(void *chunk, uint32_t draw)
{
    auto &n = in<uint32_t>(chunk);
    try {
        if (draw % 4 != 0) throw std::runtime_error("");
        n += 2;
    } catch (const std::runtime_error &) {
        n += 3;
    }
}

void stored_by_a_lambda(void *chunk, uint32_t draw)
{
    auto &n = in<std::array<uint64_t, 8>>(chunk);
    auto add = [&n](uint32_t k) { n[k % n.size()] += k | 1; };
    add(draw);
}

// What was expected becomes what is there.
void atomic_exchange_that_fails(void *chunk, uint32_t draw)
{
    std::atomic<uint32_t> shared(in<uint32_t>(chunk) + draw % 99 + 1);
    shared.compare_exchange_strong(in<uint32_t>(chunk), 9); // untold by GCC
}

// A call of the C++ library alone.
void characters_of_a_number(void *chunk, uint32_t draw)
{
    auto *to = static_cast<char *>(chunk);
    std::to_chars(to, to + 60, draw * 0.25);
}

void number_of_characters(void *chunk, uint32_t draw)
{
    const std::string text = std::to_string(draw) + ".25";
    std::from_chars(text.data(), text.data() + text.size(), in<double>(chunk));
}

} // namespace

extern "C" const way class_ways[] = {
    {"class with virtual functions", 32, class_with_virtuals},
    {"made in place", sizeof(numbers), made_in_place},
    {"array assigned", sizeof(numbers), array_assigned},
    {"array filled", sizeof(numbers), array_filled},
    {"array sorted", sizeof(numbers), array_sorted},
    {"array moved", sizeof(numbers), array_moved},
    {"atomic number", 64, atomic_number},
    {"atomic pair", 64, atomic_pair},
    {"optional", 64, optional_number},
    {"variant", 64, variant_of_three},
    {"tuple", 64, tuple_by_reference},
    {"vector in a chunk", 4096, vector_in_a_chunk},
    {"short string", 64, short_string},
    {"by a handler of exceptions", 64, stored_by_a_handler},
    {"by a lambda", 64, stored_by_a_lambda},
    {"atomic exchange that fails", 64, atomic_exchange_that_fails},
    {"to_chars", 64, characters_of_a_number},
    {"from_chars", 64, number_of_characters},
    {nullptr, 0, nullptr},
};
