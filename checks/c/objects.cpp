// The calls of dymelor.hpp with good and with bad arguments: what they answer, what they throw, and what stays. It ends with 0, or with 1
// after a line for each difference.
#include "dymelor.hpp"

#include <algorithm>
#include <memory_resource>
#include <list>
#include <array>
#include <cstdio>
#include <cstring>
#include <string>

namespace {

int differences = 0;

void expect(bool holds, const char *what, int line)
{
    if (holds) return;
    std::fprintf(stderr, "objects.cpp:%d: %s\n", line, what);
    differences++;
}

#define EXPECT(what) expect((what), #what, __LINE__)

// Whether a call is refused by a status.
template <class Call> bool refuses(dym_status status, Call call)
{
    try {
        call();
    } catch (const dymelor::refused &why) {
        return why.status() == status && std::strcmp(why.what(), dym_status_text(status)) == 0;
    }
    return false;
}

using handle_list = std::vector<dymelor::handle>;

dymelor::handle handle_of(std::uint8_t exponent, std::uint32_t index)
{
    return {exponent, index};
}

struct point {
    double x, y;
};

// Counts what was constructed and not destroyed yet.
struct counted {
    explicit counted(int &count) : count_(count)
    {
        if (count_ == 3) throw std::runtime_error("three are enough");
        count_++;
    }
    ~counted() { count_--; }
    int &count_;
};

// Its destructor writes. A compiler may leave that out, unless the number is volatile.
template <class Number> struct erased {
    Number value = 7;
    ~erased() { value = 9; }
};

void opening()
{
    EXPECT(refuses(DYM_BAD, [] { dymelor::object none(0); }));
    EXPECT(refuses(DYM_BAD, [] { dymelor::object none(4, 3); }));
    dymelor::object closed;
    EXPECT(!closed.is_open() && closed.try_log(1, dymelor::wrote::touched) == DYM_STATE);
    EXPECT(closed.try_log(1, dymelor::wrote::anywhere) == DYM_STATE);
    EXPECT(refuses(DYM_STATE, [&] { closed.make<int>(3); }));
    EXPECT(closed.try_open(2) == DYM_DONE && closed.try_open(2) == DYM_STATE && closed.is_open());
    closed.close();
    closed.close();
    EXPECT(!closed.is_open());
}

void moves()
{
    dymelor::object a(2), b(3);
    auto value = a.make<int>(7);
    b = std::move(a);
    EXPECT(!a.is_open() && b.is_open() && b.at<int>(value.chunk) == 7 && &b.at<int>(value.chunk) == value.at);
    dymelor::object c(std::move(b));
    EXPECT(!b.is_open() && *value == 7 && c.at<int>(value.chunk) == 7);
    static_assert(!std::is_copy_constructible_v<dymelor::object> && !std::is_copy_assignable_v<dymelor::object>);
}

void values()
{
    dymelor::object o(2);
    auto p = o.make<point>(1.5, 2.5);
    EXPECT(p->x == 1.5 && p->y == 2.5 && dym_same(o.chunk_of(&p->y), p.chunk));
    EXPECT(o.make<point>()->x == 0);
    o.touch<point>(p.chunk).y = 4;
    EXPECT(o.at<point>(p.chunk).y == 4);
    using longer = std::array<double, 3>;
    EXPECT(refuses(DYM_RANGE, [&] { o.at<longer>(p.chunk); }) && refuses(DYM_RANGE, [&] { o.touch<longer>(p.chunk); }));
    EXPECT(refuses(DYM_QUOTA, [&] { o.make<std::array<char, 100>>(), o.make<std::array<char, 1000>>(); }));
    o.destroy(p.at);
    EXPECT(refuses(DYM_DEAD, [&] { o.at<point>(p.chunk); }) && refuses(DYM_DEAD, [&] { o.destroy(p.at); }));
    EXPECT(refuses(DYM_DEAD, [&] { o.chunk_of(&o); }));
    int count = 2;
    auto made = o.make<counted>(count);
    bool thrown = false;
    try {
        o.make<counted>(count);
    } catch (const std::runtime_error &) {
        thrown = true;
    }
    EXPECT(thrown && count == 3 && made.chunk.index == 0 && o.make<int>(0).chunk.index == 2);
    o.destroy(made.at);
    EXPECT(count == 2);
}

// A value that was logged and destroyed, and is brought back as it was logged.
template <class Number> void destroyed()
{
    dymelor::object o;
    EXPECT(o.try_open_checked(2) == DYM_DONE);
    auto made = o.make<erased<Number>>();
    o.log(10, dymelor::wrote::touched);
    o.destroy(made.at);
    EXPECT(refuses(DYM_DEAD, [&] { o.chunk_of(made.at); }) && dym_same(o.untold(), dym_nil));
    o.restore(10, dymelor::wrote::touched);
    EXPECT(made->value == 7 && dym_same(o.untold(), dym_nil));
}

void logs()
{
    dymelor::object o(2);
    auto value = o.make<int>(1);
    EXPECT(refuses(DYM_NO_LOG, [&] { o.restore(9, dymelor::wrote::touched); }));
    EXPECT(o.log(10, dymelor::wrote::anywhere) == dymelor::log_kind::full);
    *value = 2;
    EXPECT(o.log(20, dymelor::wrote::anywhere) == dymelor::log_kind::incremental);
    o.touch<int>(value.chunk) = 3;
    o.log(30, dymelor::wrote::anywhere);
    EXPECT(refuses(DYM_NOT_AFTER, [&] { o.log(30, dymelor::wrote::anywhere); }));
    *value = 4;
    EXPECT(o.restore_before(30, dymelor::wrote::anywhere) == 20 && *value == 2);
    *value = 5;
    EXPECT(o.restore(29, dymelor::wrote::anywhere) == 20 && *value == 2);
    EXPECT(o.log(25, dymelor::wrote::touched, dymelor::log_kind::full) == dymelor::log_kind::full);
    EXPECT(o.prune_before(25) == 1 && o.prune(25) == 1 && o.try_restore(24, dymelor::wrote::touched) == DYM_NO_LOG);
}

void files()
{
    dymelor::object o(3), other;
    auto value = o.make<point>(1.0, 2.0);
    o.log(10, dymelor::wrote::touched);
    EXPECT(refuses(DYM_BAD, [&] { o.save("no name"); }));
    auto file = o.save("lp");
    std::uint32_t part = 9;
    EXPECT(other.try_load(file.data(), 3, dymelor::wrote::touched, &part) == DYM_FILE && part == 0);
    EXPECT(refuses(DYM_STATE, [&] { o.load(file.data(), file.size(), dymelor::wrote::touched); }));
    other.load(file.data(), file.size(), dymelor::wrote::touched);
    EXPECT(other.at<point>(value.chunk).y == 2 && &other.at<point>(value.chunk) != value.at && other.save("lp") == file);
}

// After a load, a program that writes anywhere is one whose chunks are all touched.
void written_after_a_load()
{
    dymelor::object o(3), other;
    auto value = o.make<int>(1);
    o.log(10, dymelor::wrote::touched);
    auto file = o.save("lp");
    other.load(file.data(), file.size(), dymelor::wrote::anywhere);
    const_cast<int &>(other.at<int>(value.chunk)) = 2;
    EXPECT(refuses(DYM_BAD, [&] { other.untold(); }));
    EXPECT(other.log(20, dymelor::wrote::touched) == dymelor::log_kind::incremental);
    EXPECT(other.restore(10, dymelor::wrote::touched) == 10 && other.at<int>(value.chunk) == 1);
}

void seen()
{
    dymelor::object o, closed;
    EXPECT(o.try_open_checked(3) == DYM_DONE);
    EXPECT(o.live().begin() == o.live().end() && closed.live().begin() == closed.live().end());
    auto far = o.make<std::array<char, 100>>();
    auto near = o.make<int>(1);
    auto small = o.make<int>(2);
    const handle_list wanted = {near.chunk, small.chunk, far.chunk};
    handle_list met;
    for (dymelor::handle chunk : o.live()) met.push_back(chunk);
    EXPECT(std::equal(met.begin(), met.end(), wanted.begin(), wanted.end(), [](auto a, auto b) { return dym_same(a, b) != 0; }));
    EXPECT(o.size(far.chunk) == 100 && refuses(DYM_DEAD, [&] { o.size(handle_of(5, 9)); }));
    EXPECT(o.inspect().version == 2 && o.inspect().quota == 3 && o.inspect().held == 2);
    EXPECT(refuses(DYM_STATE, [&] { closed.inspect(); }) && refuses(DYM_STATE, [&] { closed.hash(); }));
    const std::uint64_t before = o.hash();
    EXPECT(dym_same(o.untold(), dym_nil));
    o.log(10, dymelor::wrote::touched);
    o.log(20, dymelor::wrote::touched);
    EXPECT(o.logs().kept == 2 && o.log_time(1) == 20 && refuses(DYM_NO_LOG, [&] { o.log_time(2); }));
    EXPECT(o.kind_of_log(0) == dymelor::log_kind::full && o.kind_of_log(1) == dymelor::log_kind::incremental && o.changed() == 0);
    EXPECT(o.usage().live > 100 && o.usage().live + o.usage().idle == std::uint64_t{o.inspect().held} * 65536);
    EXPECT(o.hash() == before);
    *small = 3;
    EXPECT(dym_same(o.untold(), small.chunk) && o.hash() != before);
}

bool wants_memory(std::pmr::memory_resource &memory, std::size_t bytes, std::size_t aligned_to)
{
    try {
        memory.deallocate(memory.allocate(bytes, aligned_to), bytes, aligned_to);
    } catch (const std::bad_alloc &) {
        return true;
    }
    return false;
}

void resources()
{
    dymelor::object o(2);
    dymelor::resource memory(o), same(o);
    EXPECT(memory == memory && memory != same);
    EXPECT(!wants_memory(memory, 0, 1) && !wants_memory(memory, 65536, 16));
    EXPECT(wants_memory(memory, 65537, 8) && wants_memory(memory, 65536, 32) && !wants_memory(memory, 65520, 32));
    for (std::size_t aligned_to = 1; aligned_to <= 32768; aligned_to *= 2) {
        void *place = memory.allocate(100, aligned_to);
        EXPECT(reinterpret_cast<std::uintptr_t>(place) % aligned_to == 0);
        std::memset(place, 1, 100);
        memory.deallocate(place, 100, aligned_to);
    }
    void *a = memory.allocate(65536), *b = memory.allocate(0);
    EXPECT(wants_memory(memory, 65536, 16));
    memory.deallocate(a, 65536);
    memory.deallocate(b, 0);
    dym_handle first = dym_nil;
    EXPECT(dym_next(o.c(), dym_nil, &first) == DYM_DONE && dym_same(first, dym_nil));
}

// A pool in a chunk, whose blocks are chunks: it rolls back with what it gave.
void pools()
{
    dymelor::object o(16);
    dymelor::resource memory(o);
    auto pool = o.make<std::pmr::unsynchronized_pool_resource>(std::pmr::pool_options{32, 1024}, &memory);
    auto list = o.make<std::pmr::list<std::pmr::string>>(pool.at);
    for (int k = 0; k < 500; k++) list->push_back("a text that is too long for the string itself");
    o.log(1, dymelor::wrote::anywhere);
    for (int round = 0; round < 50; round++) {
        for (int k = 0; k < 300; k++) list->pop_front();
        for (int k = 0; k < 200; k++) list->emplace_back("another text, of another length");
        o.restore(1, dymelor::wrote::anywhere);
        EXPECT(list->size() == 500 && list->back() == "a text that is too long for the string itself");
    }
    o.destroy(list.at);
    o.destroy(pool.at);
}

} // namespace

int main()
{
    opening();
    moves();
    values();
    destroyed<int>();
    destroyed<volatile int>();
    logs();
    files();
    written_after_a_load();
    seen();
    resources();
    pools();
    return differences > 0;
}
