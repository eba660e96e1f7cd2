// The calls of dymelor.hpp where the compiler has no exceptions (-fno-exceptions -fno-rtti): each try_ form with what it tells, also where
// nobody reads it. It ends with 0, or with 1 after a line for each difference.
#include "dymelor.hpp"

#include <cstdio>

namespace {

int differences = 0;

void expect(bool holds, const char *what, int line)
{
    if (holds) return;
    std::fprintf(stderr, "no_exceptions.cpp:%d: %s\n", line, what);
    differences++;
}

#define EXPECT(what) expect((what), #what, __LINE__)
#define ANSWERS(call, status) expect((call) == (status), #call, __LINE__)

struct point {
    double x, y;
};

void values(dymelor::object &o)
{
    dymelor::placed<point> made{};
    const point *seen = nullptr;
    point *touched = nullptr;
    dymelor::handle chunk = dym_nil;
    std::uint32_t length = 0;
    ANSWERS(o.try_make<point>(&made, 1.5, 2.5), DYM_DONE);
    ANSWERS(o.try_at(made.chunk, &seen), DYM_DONE);
    EXPECT(seen == made.at && seen->y == 2.5);
    ANSWERS(o.try_touch(made.chunk, &touched), DYM_DONE);
    touched->x = 4;
    EXPECT(touched == made.at && made->x == 4);
    ANSWERS(o.try_chunk_of(&made->y, &chunk), DYM_DONE);
    ANSWERS(o.try_size(made.chunk, &length), DYM_DONE);
    EXPECT(dym_same(chunk, made.chunk) && length == sizeof(point));
    ANSWERS(o.try_at<point[2]>(made.chunk, nullptr), DYM_RANGE);
    ANSWERS(o.try_destroy(made.at), DYM_DONE);
    ANSWERS(o.try_destroy(made.at), DYM_DEAD);
    ANSWERS(o.try_touch<point>(made.chunk, &touched), DYM_DEAD);
    ANSWERS(o.try_size(made.chunk, nullptr), DYM_DEAD);
    EXPECT(touched == made.at && length == sizeof(point));
}

void logs(dymelor::object &o)
{
    dymelor::placed<int> made{};
    dymelor::object loaded;
    dym_heap heap{};
    dym_slots slots{};
    dymelor::log_kind logged = dymelor::log_kind::incremental;
    dymelor::handle untold = {9, 9};
    std::uint64_t number = 0, hash = 0, length = 0;
    unsigned char file[1000] = {0};
    int chunks = 0;
    ANSWERS(o.try_make<int>(nullptr, 1), DYM_DONE);
    ANSWERS(o.try_make<int>(&made, 2), DYM_DONE);
    for (dymelor::handle chunk : o.live()) chunks += dym_same(chunk, dym_nil) == 0;
    ANSWERS(o.try_inspect(&heap), DYM_DONE);
    EXPECT(chunks == 2 && heap.held == 1 && heap.version == 2);
    ANSWERS(o.try_log(10, dymelor::wrote::anywhere, &logged), DYM_DONE);
    ANSWERS(o.try_hash(&hash), DYM_DONE);
    *made = 3;
    ANSWERS(o.try_log(20, dymelor::wrote::anywhere), DYM_DONE);
    ANSWERS(o.try_untold(&untold), DYM_DONE);
    ANSWERS(o.try_logs(&slots), DYM_DONE);
    ANSWERS(o.try_kind_of_log(1, &logged), DYM_DONE);
    EXPECT(logged == dymelor::log_kind::incremental);
    ANSWERS(o.try_kind_of_log(0, &logged), DYM_DONE);
    ANSWERS(o.try_changed(&number), DYM_DONE);
    EXPECT(number == 2);
    ANSWERS(o.try_usage(nullptr), DYM_DONE);
    ANSWERS(o.try_log_time(1, &number), DYM_DONE);
    EXPECT(logged == dymelor::log_kind::full && dym_same(untold, dym_nil) && slots.kept == 2 && number == 20);
    ANSWERS(o.try_save("lp", file, 0, &length), DYM_RANGE);
    EXPECT(length > 0 && length < sizeof file);
    ANSWERS(o.try_save("lp", file, sizeof file, nullptr), DYM_DONE);
    ANSWERS(loaded.try_load(file, static_cast<std::size_t>(length), dymelor::wrote::touched), DYM_DONE);
    ANSWERS(loaded.try_restore(10, dymelor::wrote::touched), DYM_DONE);
    ANSWERS(loaded.try_hash(&number), DYM_DONE);
    EXPECT(number == hash);
    ANSWERS(o.try_restore_before(20, dymelor::wrote::anywhere, &number), DYM_DONE);
    EXPECT(number == 10 && *made == 2);
    ANSWERS(o.try_prune(10), DYM_DONE);
    ANSWERS(o.try_prune_before(11), DYM_DONE);
}

} // namespace

int main()
{
    dymelor::object o;
    ANSWERS(o.try_make<int>(nullptr), DYM_STATE);
    ANSWERS(o.try_open(2), DYM_DONE);
    ANSWERS(o.try_untold(nullptr), DYM_BAD);
    o.close();
    ANSWERS(o.try_open_checked(2), DYM_DONE);
    values(o);
    logs(o);
    dymelor::resource memory(o);
    void *place = memory.allocate(64, 16);
    ANSWERS(o.try_chunk_of(place, nullptr), DYM_DONE);
    memory.deallocate(place, 64, 16);
    ANSWERS(o.try_chunk_of(place, nullptr), DYM_DEAD);
    return differences > 0;
}
