/*
 * dymelor.hpp: the calls of dymelor.h for C++17, header only.
 *
 * dymelor::object is a dym_object that is moved, not copied, and that its destructor closes. A call that isn't done throws
 * dymelor::refused, which has the status and its words; the same call with try_ before its name answers the status, and tells its result by
 * a last parameter, which may be null. Where the compiler has no exceptions (-fno-exceptions) the calls that throw aren't there. Calls that
 * stand in dymelor.h alone take object.c().
 *
 * A value of any type can lie in a chunk: object.make<T>(..) constructs one. It stays at one address as long as it lives, through logs,
 * restores and prunes, and a restore brings back its bytes as they were. So pointers from chunk to chunk, and containers whose nodes are
 * chunks (dymelor::resource), are right again after a restore. What lies elsewhere isn't rolled back: the memory of new and malloc, that of
 * a plain std::string or std::function, files, locks. So a state has pointers to chunks of its object and to what doesn't change, as code,
 * constants, and the resource itself; and another object, or one that was loaded from a file, has other addresses.
 *
 * What C++ owes is what dymelor.h says that C owes. Of it this file takes over what a container can't say, which chunks it writes into: with
 * wrote::anywhere, right after each log, restore and load, every live chunk is touched, so that all their bytes are kept. With
 * wrote::touched those count that were touched, which the program answers for. With wrote::told the compiler has touched them, where
 * dymelor-c++ compiled what writes (dymelor_track.h, which names what isn't told: the nodes of std::list, std::map and std::set).
 */
#ifndef DYMELOR_HPP
#define DYMELOR_HPP

#include "dymelor.h"

#include <cstddef>
#include <cstdint>
#include <cstdlib>
#include <exception>
#include <iterator>
#include <memory_resource>
#include <new>
#include <string_view>
#include <type_traits>
#include <utility>
#include <vector>

/* Whether a call may throw. */
#if defined(__cpp_exceptions) || defined(__EXCEPTIONS) || defined(_CPPUNWIND)
#define DYM_THROWS 1
#else
#define DYM_THROWS 0
#endif

namespace dymelor {

using handle = dym_handle;

/* The most bytes of a chunk, and what each is aligned to. */
inline constexpr std::size_t most_bytes = 65536;
inline constexpr std::size_t alignment = 16;

/* A call wasn't done. */
class refused : public std::exception {
public:
    explicit refused(dym_status status) noexcept : status_(status) {}
    dym_status status() const noexcept { return status_; }
    const char *what() const noexcept override { return dym_status_text(status_); }

private:
    dym_status status_;
};

#if DYM_THROWS
/* Throws what the status refuses. */
inline void done(dym_status status)
{
    if (status != DYM_DONE) throw refused(status);
}
#endif

/* Where the program writes from a log, a restore or a load on, up to the next one: into any live chunk, which is touched then, or into those
 * alone that it, or the compiler, touches before. */
enum class wrote { anywhere, touched, told };

/* The kind of a log: dym_log. */
enum class log_kind : std::uint32_t { full = DYM_FULL, incremental = DYM_INCREMENTAL };

/* A value in a chunk of its own. */
template <class T> struct placed {
    handle chunk;
    T *at;
    T *operator->() const noexcept { return at; }
    T &operator*() const noexcept { return *at; }
};

/* The live chunks of an object, in the order of exponents and then of indices; none of a closed one. A chunk that is freed or taken while
 * one walks may be met or not. */
class chunks {
public:
    class iterator {
    public:
        using iterator_category = std::forward_iterator_tag;
        using value_type = handle;
        using difference_type = std::ptrdiff_t;
        using pointer = const handle *;
        using reference = const handle &;

        iterator() noexcept = default;
        reference operator*() const noexcept { return chunk_; }
        pointer operator->() const noexcept { return &chunk_; }
        bool operator==(const iterator &other) const noexcept { return dym_same(chunk_, other.chunk_) != 0; }
        bool operator!=(const iterator &other) const noexcept { return !(*this == other); }

        iterator &operator++() noexcept
        {
            handle next = dym_nil;
            chunk_ = dym_next(object_, chunk_, &next) == DYM_DONE ? next : dym_nil;
            return *this;
        }

        iterator operator++(int) noexcept
        {
            iterator before = *this;
            ++*this;
            return before;
        }

    private:
        friend class chunks;
        explicit iterator(const dym_object *object) noexcept : object_(object) { ++*this; }

        const dym_object *object_ = nullptr;
        handle chunk_ = {0, 0};
    };

    explicit chunks(const dym_object *object) noexcept : object_(object) {}
    iterator begin() const noexcept { return iterator(object_); }
    iterator end() const noexcept { return {}; }

private:
    const dym_object *object_;
};

class object {
public:
    /* A closed object. */
    object() noexcept = default;

    object(object &&other) noexcept : c_(std::exchange(other.c_, dym_object{})) {}

    object &operator=(object &&other) noexcept
    {
        if (this != &other) {
            close();
            c_ = std::exchange(other.c_, dym_object{});
        }
        return *this;
    }

    ~object() { close(); }

    /* For the calls of dymelor.h. */
    dym_object *c() noexcept { return &c_; }
    const dym_object *c() const noexcept { return &c_; }

    bool is_open() const noexcept { return c_.inside != nullptr; }

    /* Opens a closed object: dym_open. In version 2 a chunk is as long as was asked. */
    DYM_NODISCARD dym_status try_open(std::uint32_t quota, std::uint32_t version = 2) noexcept { return dym_open(&c_, quota, version); }

    /* The same, and the object is checked, for try_untold: dym_open_checked. */
    DYM_NODISCARD dym_status try_open_checked(std::uint32_t quota, std::uint32_t version = 2) noexcept
    {
        return dym_open_checked(&c_, quota, version);
    }

    /* Frees all memory of the object. No destructor of what lies in it runs. A closed object stays closed. */
    void close() noexcept
    {
        if (is_open()) dym_close(&c_);
    }

    /* ---- values in chunks */

    /* Constructs a T in a fresh chunk. DYM_QUOTA. What its constructor throws leaves no chunk behind. */
    template <class T, class... Arguments> DYM_NODISCARD dym_status try_make(placed<T> *told, Arguments &&...arguments)
    {
        fits<T>();
        placed<T> made{};
        void *place = nullptr;
        const dym_status status = dym_malloc_at(&c_, sizeof(T), &made.chunk, &place);
        if (status != DYM_DONE) return status;
        unmade rest{&c_, made.chunk};
        made.at = construct<T>(place, std::forward<Arguments>(arguments)...);
        rest.object = nullptr;
        if (told != nullptr) *told = made;
        return status;
    }

    /* Destroys a value that was made, and frees its chunk, which is touched before the destructor may write into it. What the destructor writes
     * elsewhere, as into the nodes of a container, counts as any other write (wrote). DYM_DEAD: it lies in none of this object. */
    template <class T> DYM_NODISCARD dym_status try_destroy(T *value)
    {
        handle chunk = dym_nil;
        dym_status status = try_chunk_of(value, &chunk);
        if (status == DYM_DONE) status = dym_touch(&c_, chunk, nullptr);
        if (status != DYM_DONE) return status;
        value->~T();
        return dym_free(&c_, chunk);
    }

    /* The value in a chunk, to be read. DYM_DEAD; DYM_RANGE: the chunk is shorter than a T. */
    template <class T> DYM_NODISCARD dym_status try_at(handle chunk, const T **told) const noexcept
    {
        const void *place = nullptr;
        dym_status status = has<T>(chunk);
        if (status == DYM_DONE) status = dym_address(&c_, chunk, &place);
        if (status == DYM_DONE && told != nullptr) *told = static_cast<const T *>(place);
        return status;
    }

    /* The same, to be read and written up to the next log, restore or load: the chunk is touched, before it is written. */
    template <class T> DYM_NODISCARD dym_status try_touch(handle chunk, T **told) noexcept
    {
        void *place = nullptr;
        dym_status status = has<T>(chunk);
        if (status == DYM_DONE) status = dym_touch(&c_, chunk, &place);
        if (status == DYM_DONE && told != nullptr) *told = static_cast<T *>(place);
        return status;
    }

    /* The live chunk in which an address lies. DYM_DEAD: it lies in none. */
    DYM_NODISCARD dym_status try_chunk_of(const void *address, handle *told) const noexcept
    {
        handle chunk = dym_nil;
        const dym_status status = dym_at(&c_, address, &chunk);
        if (status == DYM_DONE && told != nullptr) *told = chunk;
        return status;
    }

    /* ---- what can be seen */

    /* A chunk's length in bytes. DYM_DEAD. */
    DYM_NODISCARD dym_status try_size(handle chunk, std::uint32_t *told) const noexcept
    {
        std::uint32_t unread = 0;
        return dym_size(&c_, chunk, told != nullptr ? told : &unread);
    }

    /* The live chunks: for (dymelor::handle chunk : object.live()). */
    chunks live() const noexcept { return chunks(&c_); }

    /* The version, the quota, and how many segments are held. */
    DYM_NODISCARD dym_status try_inspect(dym_heap *told) const noexcept
    {
        dym_heap unread{};
        return dym_inspect(&c_, told != nullptr ? told : &unread);
    }

    /* The bytes of live chunks, of what is kept for restores, and of held segments beside: dym_usage. */
    DYM_NODISCARD dym_status try_usage(dym_bytes *told) const noexcept
    {
        dym_bytes unread{};
        return dym_usage(&c_, told != nullptr ? told : &unread);
    }

    /* The first chunk that was written and not touched before; nil where there is none: dym_untold. DYM_BAD: the object isn't checked. */
    DYM_NODISCARD dym_status try_untold(handle *told) const noexcept
    {
        handle unread = dym_nil;
        return dym_untold(&c_, told != nullptr ? told : &unread);
    }

    /* A number of the live heap: dym_hash. */
    DYM_NODISCARD dym_status try_hash(std::uint64_t *told) const noexcept
    {
        std::uint64_t unread = 0;
        return dym_hash(&c_, told != nullptr ? told : &unread);
    }

    /* How many logs are kept, and how many records a script's object would have for them. */
    DYM_NODISCARD dym_status try_logs(dym_slots *told) const noexcept
    {
        dym_slots unread{};
        return dym_logs(&c_, told != nullptr ? told : &unread);
    }

    /* The time of a kept log, of which the oldest has place 0. DYM_NO_LOG. */
    DYM_NODISCARD dym_status try_log_time(std::uint32_t place, std::uint64_t *told) const noexcept
    {
        std::uint64_t unread = 0;
        return dym_log_time(&c_, place, told != nullptr ? told : &unread);
    }

    /* The kind of a kept log, of which the oldest has place 0: dym_log_kind. DYM_NO_LOG. */
    DYM_NODISCARD dym_status try_kind_of_log(std::uint32_t place, log_kind *told) const noexcept
    {
        std::uint32_t kind = DYM_FULL;
        const dym_status status = dym_log_kind(&c_, place, &kind);
        if (status == DYM_DONE && told != nullptr) *told = static_cast<log_kind>(kind);
        return status;
    }

    /* How many chunks were changed since the newest log: dym_changed. */
    DYM_NODISCARD dym_status try_changed(std::uint64_t *told) const noexcept
    {
        std::uint64_t unread = 0;
        return dym_changed(&c_, told != nullptr ? told : &unread);
    }

    /* ---- logs */

    /* Logs the heap at a time above that of the newest log; the kind of the log is told. DYM_NOT_AFTER, DYM_LOGS_FULL, DYM_MEMORY. */
    DYM_NODISCARD dym_status try_log(std::uint64_t time, wrote where, log_kind *told = nullptr,
                                     log_kind kind = log_kind::incremental) noexcept
    {
        std::uint32_t logged = DYM_FULL;
        const dym_status status = dym_log(&c_, static_cast<std::uint32_t>(kind), time, &logged);
        if (status == DYM_DONE && told != nullptr) *told = static_cast<log_kind>(logged);
        return begun(where, status);
    }

    /* Brings the heap back to the newest log at or before a time, and drops those after it; the time of that log is told. DYM_NO_LOG. */
    DYM_NODISCARD dym_status try_restore(std::uint64_t time, wrote where, std::uint64_t *told = nullptr) noexcept
    {
        return begun(where, dym_restore(&c_, time, told));
    }

    /* The same with the newest log before a time. */
    DYM_NODISCARD dym_status try_restore_before(std::uint64_t time, wrote where, std::uint64_t *told = nullptr) noexcept
    {
        return begun(where, dym_restore_before(&c_, time, told));
    }

    /* Drops the logs before the newest one at or before a bound, or before a bound; how many is told. */
    DYM_NODISCARD dym_status try_prune(std::uint64_t bound, std::uint32_t *told = nullptr) noexcept { return dym_prune(&c_, bound, told); }

    DYM_NODISCARD dym_status try_prune_before(std::uint64_t bound, std::uint32_t *told = nullptr) noexcept
    {
        return dym_prune_before(&c_, bound, told);
    }

    /* ---- checkpoint files, of states without pointers: an object that is loaded has other addresses */

    /* Writes the file to where bytes begin; its length is told, also where it is longer than the room, which is DYM_RANGE: so a room of 0
     * asks for it, at a pointer that isn't null. DYM_BAD: the name is none. DYM_MEMORY. */
    DYM_NODISCARD dym_status try_save(std::string_view name, void *bytes, std::size_t room, std::uint64_t *told) const noexcept
    {
        std::uint64_t unread = 0;
        static const char none[] = "";
        return dym_save(&c_, name.data() != nullptr ? name.data() : none, name.size(), bytes, room, told != nullptr ? told : &unread);
    }

    /* Opens a closed object by a file. DYM_FILE: the bytes are no file, and the first part that fails is told. DYM_MEMORY. */
    DYM_NODISCARD dym_status try_load(const void *bytes, std::size_t length, wrote where, std::uint32_t *told = nullptr) noexcept
    {
        return begun(where, dym_load(&c_, bytes, length, told));
    }

#if DYM_THROWS
    /* ---- the same calls, which throw what is refused */

    /* An open one: dym_open. */
    explicit object(std::uint32_t quota, std::uint32_t version = 2) { done(try_open(quota, version)); }

    template <class T, class... Arguments> placed<T> make(Arguments &&...arguments)
    {
        placed<T> made{};
        done(try_make<T>(&made, std::forward<Arguments>(arguments)...));
        return made;
    }

    template <class T> void destroy(T *value) { done(try_destroy(value)); }

    template <class T> const T &at(handle chunk) const
    {
        const T *value = nullptr;
        done(try_at<T>(chunk, &value));
        return *value;
    }

    template <class T> T &touch(handle chunk)
    {
        T *value = nullptr;
        done(try_touch<T>(chunk, &value));
        return *value;
    }

    handle chunk_of(const void *address) const
    {
        handle chunk = dym_nil;
        done(try_chunk_of(address, &chunk));
        return chunk;
    }

    std::uint32_t size(handle chunk) const
    {
        std::uint32_t length = 0;
        done(try_size(chunk, &length));
        return length;
    }

    dym_heap inspect() const
    {
        dym_heap heap{};
        done(try_inspect(&heap));
        return heap;
    }

    dym_bytes usage() const
    {
        dym_bytes bytes{};
        done(try_usage(&bytes));
        return bytes;
    }

    handle untold() const
    {
        handle chunk = dym_nil;
        done(try_untold(&chunk));
        return chunk;
    }

    std::uint64_t hash() const
    {
        std::uint64_t hash = 0;
        done(try_hash(&hash));
        return hash;
    }

    dym_slots logs() const
    {
        dym_slots slots{};
        done(try_logs(&slots));
        return slots;
    }

    std::uint64_t log_time(std::uint32_t place) const
    {
        std::uint64_t time = 0;
        done(try_log_time(place, &time));
        return time;
    }

    log_kind kind_of_log(std::uint32_t place) const
    {
        log_kind kind = log_kind::full;
        done(try_kind_of_log(place, &kind));
        return kind;
    }

    std::uint64_t changed() const
    {
        std::uint64_t count = 0;
        done(try_changed(&count));
        return count;
    }

    log_kind log(std::uint64_t time, wrote where, log_kind kind = log_kind::incremental)
    {
        log_kind logged = kind;
        done(try_log(time, where, &logged, kind));
        return logged;
    }

    std::uint64_t restore(std::uint64_t time, wrote where)
    {
        std::uint64_t restored = 0;
        done(try_restore(time, where, &restored));
        return restored;
    }

    std::uint64_t restore_before(std::uint64_t time, wrote where)
    {
        std::uint64_t restored = 0;
        done(try_restore_before(time, where, &restored));
        return restored;
    }

    std::uint32_t prune(std::uint64_t bound)
    {
        std::uint32_t dropped = 0;
        done(try_prune(bound, &dropped));
        return dropped;
    }

    std::uint32_t prune_before(std::uint64_t bound)
    {
        std::uint32_t dropped = 0;
        done(try_prune_before(bound, &dropped));
        return dropped;
    }

    std::vector<std::uint8_t> save(std::string_view name) const
    {
        std::vector<std::uint8_t> file(1);
        std::uint64_t length = 0;
        dym_status status = try_save(name, file.data(), 0, &length);
        if (status == DYM_RANGE) {
            file.resize(static_cast<std::size_t>(length));
            status = try_save(name, file.data(), file.size(), &length);
        }
        done(status);
        return file;
    }

    void load(const void *bytes, std::size_t length, wrote where) { done(try_load(bytes, length, where)); }
#endif

private:
    /* A chunk in which no value was constructed yet: it is freed where a constructor throws. */
    struct unmade {
        dym_object *object;
        handle chunk;
        ~unmade()
        {
            if (object != nullptr) static_cast<void>(dym_free(object, chunk));
        }
    };

    template <class T> static constexpr void fits()
    {
        static_assert(sizeof(T) <= most_bytes, "a chunk has at most 65,536 bytes");
        static_assert(alignof(T) <= alignment, "a chunk is aligned to 16 bytes");
    }

    /* By parentheses, or by braces where the type takes no others. */
    template <class T, class... Arguments> static T *construct(void *place, Arguments &&...arguments)
    {
        if constexpr (std::is_constructible_v<T, Arguments...>)
            return ::new (place) T(std::forward<Arguments>(arguments)...);
        else
            return ::new (place) T{std::forward<Arguments>(arguments)...};
    }

    /* Whether a chunk is long enough. Only bytes are known of it: a type that is more than its bytes comes from make. */
    template <class T> dym_status has(handle chunk) const noexcept
    {
        std::uint32_t length = 0;
        fits<T>();
        static_assert(std::is_trivially_copyable_v<T>, "the value in a chunk that is named by a handle is its bytes");
        const dym_status status = dym_size(&c_, chunk, &length);
        if (status != DYM_DONE) return status;
        return length < sizeof(T) ? DYM_RANGE : DYM_DONE;
    }

    /* What a log, a restore or a load answered. What the program writes from there on is touched before, where it writes anywhere. */
    dym_status begun(wrote where, dym_status status) noexcept
    {
        return status == DYM_DONE && where == wrote::anywhere ? dym_touch_all(&c_) : status;
    }

    dym_object c_ = {nullptr};
};

/*
 * The chunks of an object as the memory of containers: std::pmr::list, map, string, vector, deque and what else takes a memory_resource. Each
 * node is a chunk, and the container itself lies in one too (object.make), so that both roll back.
 *
 * What is asked above 65,536 bytes, or beyond the quota, is std::bad_alloc; where the compiler has no exceptions the program ends by std::abort,
 * as containers know no other answer. Of an alignment above 16 the bytes up to it count too. A vector or a string grows into a new block beside
 * the old one, and at most to 65,536 bytes: reserve what it needs, or take a deque, whose blocks are small. A
 * std::pmr::unsynchronized_pool_resource over it lies in a chunk itself, and is made with std::pmr::pool_options that keep its blocks
 * below that length, as {32, 1024}: without, it asks for ever longer ones, up to a std::bad_alloc. The library writes into its blocks where no
 * compiler tells it, so that it goes with wrote::anywhere.
 *
 * Containers keep the address of the resource, and the resource that of the object: both stay where they are as long as these are used.
 */
class resource : public std::pmr::memory_resource {
public:
    explicit resource(object &of) noexcept : object_(&of) {}

private:
    void *do_allocate(std::size_t bytes, std::size_t aligned_to) override
    {
        void *place = nullptr;
        /* A chunk is aligned to 16, and stays where it is: an address in it that is aligned to more stays so. */
        const std::size_t more = aligned_to > alignment ? aligned_to - alignment : 0;
        if (bytes > most_bytes || more > most_bytes) wanting();
        /* A chunk without a byte has no address. */
        const std::size_t length = (bytes > 0 ? bytes : 1) + more;
        if (dym_malloc_at(object_->c(), length, nullptr, &place) != DYM_DONE) wanting();
        const auto at = reinterpret_cast<std::uintptr_t>(place);
        return static_cast<char *>(place) + ((at + aligned_to - 1) / aligned_to * aligned_to - at);
    }

    [[noreturn]] static void wanting()
    {
#if DYM_THROWS
        throw std::bad_alloc();
#else
        std::abort();
#endif
    }

    /* It may not fail, and doesn't for what was allocated here. */
    void do_deallocate(void *place, std::size_t, std::size_t) override
    {
        handle chunk = dym_nil;
        if (dym_at(object_->c(), place, &chunk) == DYM_DONE) static_cast<void>(dym_free(object_->c(), chunk));
    }

    bool do_is_equal(const std::pmr::memory_resource &other) const noexcept override { return this == &other; }

    object *object_;
};

} // namespace dymelor

#undef DYM_THROWS

#endif
