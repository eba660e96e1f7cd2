/*
 * dymelor.h: heaps that can be logged at simulation times and rolled back, for C and C++.
 *
 * An object is the heap of one logical process. Its chunks are named by handles, which stay valid over rollbacks, and lie at addresses
 * that follow from the handles and so stay valid, too. The bytes of a chunk are written and read by calls, or in place, by a pointer; before
 * they are written in place, a call touches the chunk, so that the object keeps what stands there. A log marks the heap at a simulation time:
 * it copies nothing, and from then on the first change of each chunk keeps what the chunk was. A restore brings back the newest log at or before
 * a time, by what was kept since; a prune drops the logs that no rollback can reach, since no event before a bound (GVT, the global virtual
 * time) can come any more.
 *
 * Every call answers a status, but for dym_version and the small functions that handle numbers, times and words. The calls of the library,
 * which stand here with DYM_API, are proved: whatever numbers are handed in, each does what stands beside it here, but for what is said to be
 * tested or is of time, and touches no memory but the object's own and what its parameters point to. The inline calls, which stand here with
 * their bodies, are tested: they are C over the proved ones. What C owes, and nothing checks:
 *
 *   - a dym_object is zeroed before its first use, and then written by these calls alone. While it is open a copy may take its place, as
 *     when an array of objects grows, but a copy and the original are never both used;
 *   - a pointer to an object is that of such a dym_object; each other pointer is that of a whole value of its type, which the caller may
 *     write unless it is const. What the pointers of one call point to doesn't overlap;
 *   - a pointer that a call writes its result to may be null only where that is said: the result is dropped then;
 *   - bytes that are handed in or out are at a pointer that isn't null, also where there are none: with a length or a room of 0 too;
 *   - a const dym_object is none that was defined const: its call leaves the heap and the logs as they were, but may write to the object
 *     while it runs, and counts a command unless it is none;
 *   - one call at a time on an object, so that two calls that take it as const aren't safe beside each other either. It may be another
 *     thread's than the call before: a lock, a barrier, a thread's start or join, or an atomic that is stored with release and loaded with
 *     acquire then stands between the two. To write a chunk by a pointer is like a call here. While no thread writes, nor calls but what
 *     takes the object as const, any number of threads may read chunks by pointers. Calls on different objects need no order;
 *   - no call from a signal handler, nor from the forked child of a process that has threads;
 *   - malloc, realloc and free are those of one allocator, which aligns a block to each power of two up to 16 that divides its length.
 *
 * Only dym_open, dym_open_checked, dym_log, dym_save and dym_load take memory, by malloc and realloc, and only these and dym_untold can answer
 * DYM_MEMORY. What an object took it keeps until dym_close frees all of it: a prune and a restore make room for later logs, and give none
 * back. When an object is opened or loaded, it takes one block for its chunks: 12 segments of 64 KiB for each segment of its quota, since each
 * of the 12 classes has places of its own. A log makes sure that there is room for whatever can change until the next one: all bytes of the
 * segments that are held, and 64 KiB for each segment of the quota. Both are address space (3 MiB for a quota of 4, 768 MiB for one of 1,024,
 * and as the log says): a malloc that maps a large block page by page, as the C library's does, takes memory only for pages that are used. The
 * calls start no thread, and wait for none.
 *
 * Pointers. A chunk stays at one address as long as its object is open: whatever else is allocated, freed, logged, restored or pruned,
 * and when it is given another length in its class. A chunk that a restore brings back is where it was when the log was taken;
 * so a pointer to a chunk that lies in another chunk is right again. dym_load opens another object: its addresses are others, and pointers
 * to the old one's chunks, also those that lie in chunks, lead nowhere. Each chunk is aligned to 16 bytes. What C owes, and nothing checks:
 *
 *   - it reads by a pointer what a live chunk has: its bytes from the first to its length, and no others;
 *   - it writes by a pointer into a live chunk that was touched since the last dym_log, dym_restore, dym_restore_before or dym_load, and
 *     into no other: touched by dym_touch, dym_touch_all, dym_wrote, dym_write or dym_fill of at least one byte, dym_link, or because
 *     dym_malloc, dym_calloc or a dym_realloc that moved it gave it. The touch comes before the first write, for the touch keeps what stands
 *     in the chunk then, and a restore brings that back. A touch after the write is as bad as none: the restore leaves what was written, and
 *     nothing tells of it, unless the object was opened by dym_open_checked;
 *   - a pointer into a chunk that was freed, moved by dym_realloc, or undone by a restore is used no more, until the chunk is live again.
 *
 * What is written by a pointer is in the next log, and in what the calls read. dym_write, dym_fill, dym_link, dym_realloc and dym_free keep what
 * stood there themselves.
 *
 * Units: a length, a room and a place in a chunk are in bytes, and places are counted from 0; a quota is in segments of 65,536 bytes; a
 * simulation time is a number of whatever unit the simulator has, of which only the order matters.
 *
 * What the text beside a call says of a parameter that it writes, as *chunk, holds at DYM_DONE. At any other status the parameter stays as
 * it was, but for *length of dym_save at DYM_RANGE, *part of dym_load at DYM_FILE, and *moved of dym_realloc_at at DYM_SPENT.
 *
 * Names: what ends with _at takes or tells an address, what ends with _offset counts bytes from where the object's block begins, and what
 * ends with _before means what is strictly before a time.
 */
#ifndef DYMELOR_H
#define DYMELOR_H

#include <stddef.h>
#include <stdint.h>
#include <string.h>

/* The version of this header: in words, in numbers, and as the one number that dym_version has for the library's. While the first number
 * is 0, a greater second one may change what stands here. */
#define DYM_VERSION "0.5.0"
#define DYM_VERSION_MAJOR 0
#define DYM_VERSION_MINOR 5
#define DYM_VERSION_PATCH 0
#define DYM_VERSION_NUMBER (DYM_VERSION_MAJOR * 10000 + DYM_VERSION_MINOR * 100 + DYM_VERSION_PATCH)

/* A call of the library, as against one that stands here with its body. */
#ifndef DYM_API
#if defined(__GNUC__)
#define DYM_API __attribute__((visibility("default")))
#else
#define DYM_API
#endif
#endif

/* A compiler warns where what such a call answers is dropped. A program that wants no such warning defines this as nothing. */
#ifndef DYM_NODISCARD
#if (defined(__cplusplus) && __cplusplus >= 201703L) || (defined(__STDC_VERSION__) && __STDC_VERSION__ > 201710L)
#define DYM_NODISCARD [[nodiscard]]
#elif defined(__GNUC__)
#define DYM_NODISCARD __attribute__((warn_unused_result))
#else
#define DYM_NODISCARD
#endif
#endif

#ifdef __cplusplus
#ifdef __clang__ /* C's casts and null pointers, which a program may have warnings for */
#pragma clang diagnostic push
#pragma clang diagnostic ignored "-Wold-style-cast"
#pragma clang diagnostic ignored "-Wzero-as-null-pointer-constant"
#endif
extern "C" {
#endif

/* The version of the library that the program runs with, as DYM_VERSION_NUMBER is this header's: 10,000 times the first number, 100 times
 * the second, and the third. Both have one first and one second number where the program was compiled for this library. */
DYM_API uint32_t dym_version(void);

/*
 * What a call answers. A refused command changes nothing of the object but the count of its commands, on which only DYM_SPENT depends; a
 * status from 8 on changes nothing of it at all. If more than one would be right, DYM_BAD comes first, then DYM_STATE, then DYM_SPENT, then
 * the refusals as they stand beside the call; DYM_MEMORY comes only if none of these does, but for dym_save and dym_load. Each call answers
 * DYM_STATE for a closed object, and dym_open and dym_load for an open one, which isn't said again beside them.
 */
typedef uint32_t dym_status;

enum {
    DYM_DONE = 0,      /* the call did what it says */
    DYM_TOO_LARGE = 1, /* refused: no class has chunks of that length; the greatest is 65,536 bytes */
    DYM_QUOTA = 2,     /* refused: the heap would hold more segments than its quota */
    DYM_DEAD = 3,      /* refused: no chunk with this handle is live */
    DYM_RANGE = 4,     /* refused: the bytes that were named pass the end of the chunk; for dym_save: the file is longer than the room */
    DYM_NOT_AFTER = 5, /* refused: the newest log has this time or a later one, and a new one must come after it */
    DYM_LOGS_FULL = 6, /* refused: 256 logs are kept, the most that an object keeps */
    DYM_NO_LOG = 7,    /* refused: no kept log is at or before the time, before it (dym_restore_before), or at the place (dym_log_time, dym_log_kind) */
    DYM_MEMORY = 8,    /* memory ran out */
    DYM_BAD = 9,       /* an argument was bad; for dym_untold: the object isn't checked */
    DYM_SPENT = 10,    /* the object has run 2^60 commands, the most that it may */
    DYM_STATE = 11,    /* the object is closed; for dym_open and dym_load: it is open */
    DYM_FILE = 12      /* the bytes are no checkpoint file */
};

/* An object: closed when it is zero. */
typedef struct dym_object {
    void *inside;
} dym_object;

/*
 * The name of a chunk: the exponent of its class, from 5 (32 bytes) to 16 (65,536 bytes), and its index in that class. Nil is zero.
 * Handles are compared by dym_same, since the struct has padding. A handle whose chunk was freed, or undone by a restore, is dead until
 * a later chunk gets the same.
 */
typedef struct dym_handle {
    uint8_t exponent;
    uint32_t index;
} dym_handle;

static const dym_handle dym_nil = {0, 0};

/* Whether two handles name the same. */
static inline int dym_same(dym_handle a, dym_handle b)
{
    return a.exponent == b.exponent && a.index == b.index;
}

/* A handle as one number, exponent * 2^32 + index, by which dym_link writes it; nil is 0. */
static inline uint64_t dym_number(dym_handle chunk)
{
    return ((uint64_t)chunk.exponent << 32) | chunk.index;
}

/* The handle of a number. A number that is no handle's gives one with a bad exponent, which calls answer by DYM_BAD. */
static inline dym_handle dym_numbered(uint64_t number)
{
    dym_handle chunk = {255, 0};
    if (number >> 32 < 255) {
        chunk.exponent = (uint8_t)(number >> 32);
        chunk.index = (uint32_t)number;
    }
    return chunk;
}

/*
 * A time for the calls from a simulator's clock, in the same order: for clocks a and b of at least 0, infinity included,
 * dym_time_of(a) < dym_time_of(b) exactly if a < b. It is 0 for 0.0, and for negative clocks and NaN. A kernel whose events may come at 0.0
 * adds 1, so that its first log, at time 0, is before them, and takes 1 away for dym_clock_of.
 */
static inline uint64_t dym_time_of(double clock)
{
    uint64_t time = 0;
    if (clock > 0)
        memcpy(&time, &clock, sizeof time);
    return time;
}

/* The clock's time again. */
static inline double dym_clock_of(uint64_t time)
{
    double clock;
    memcpy(&clock, &time, sizeof clock);
    return clock;
}

/* A status in words. */
static inline const char *dym_status_text(dym_status status)
{
    static const char *const texts[] = {
        "done",
        "no class has chunks of that length",
        "the heap would hold more segments than its quota",
        "no chunk with this handle is live",
        "the bytes pass the end of the chunk, or the file its room",
        "the newest log has this time or a later one",
        "256 logs are kept, the most that an object keeps",
        "no log is at such a time or place",
        "memory ran out",
        "an argument was bad, or the object isn't checked",
        "the object has run 2^60 commands",
        "it is closed, or open where it is to be opened; or an event is handed out, or none is",
        "the bytes are no checkpoint file",
        /* of dymelor_process.h */
        "the time is before the last bound",
        "what is sent is not later than what sends it",
        "it is for no process, or for another one",
        "before the bound an event is still to be run, or waited for",
        "there is no such event",
        "the object's logs are not those of the process",
    };
    return status < sizeof texts / sizeof texts[0] ? texts[status] : "no status";
}

/* The kinds of log, as the objects of scripts take them: both bring back the whole heap, and here both cost the same. */
enum {
    DYM_FULL = 0,       /* one that stands for itself */
    DYM_INCREMENTAL = 1 /* one that stands on the log before it */
};

/* What eight bytes of a chunk name. A link to a chunk that was freed is loose, and live again when another chunk has that handle. */
enum {
    DYM_FOUND_NIL = 0,  /* nothing: they are zero */
    DYM_FOUND_LIVE = 1, /* a live chunk */
    DYM_FOUND_LOOSE = 2 /* no live chunk */
};

typedef struct dym_found {
    uint32_t kind;
    dym_handle chunk; /* the live chunk, else nil */
    uint64_t number;  /* the number that the eight bytes are, the least byte first: for a handle exponent * 2^32 + index */
} dym_found;

/* How many logs are kept, and how many records a script's object would have for them (`slots`): theirs, and those from the last full log
 * before the oldest kept one. */
typedef struct dym_slots {
    uint32_t kept;
    uint32_t slots;
} dym_slots;

/* An object's version, its quota, and how many segments it holds, which is at most the quota. */
typedef struct dym_heap {
    uint32_t version;
    uint32_t quota;
    uint32_t held;
} dym_heap;

/* How many bytes an object has in use. */
typedef struct dym_bytes {
    uint64_t live; /* the bytes of live chunks */
    uint64_t kept; /* what is kept of chunks as they were before they changed, for restores; a prune may leave up to as much again */
    uint64_t idle; /* the bytes of held segments that are none of a live chunk */
} dym_bytes;

/* ---- objects */

/*
 * Opens a closed object with an empty heap and no log. The quota is the most segments of 64 KiB that it may hold, 1 to 1,024. In version 1
 * a chunk is as long as its class, in version 2 as long as was asked.
 * DYM_BAD: the quota is 0 or above 1,024, or the version is neither 1 nor 2. DYM_MEMORY: it stays closed.
 */
DYM_NODISCARD DYM_API dym_status dym_open(dym_object *object, uint32_t quota, uint32_t version);

/*
 * The same, and the object is checked: dym_untold finds what was written by a pointer and not touched before. For that each dym_log, dym_restore
 * and dym_restore_before copies the whole heap, in memory that this call takes: 160 KiB of address space for each segment of the quota. All
 * else is as with dym_open. To debug a kernel.
 */
DYM_NODISCARD DYM_API dym_status dym_open_checked(dym_object *object, uint32_t quota, uint32_t version);

/*
 * Closes an open object, and frees all its memory (that it is freed is tested, and no clause says it). The object can be opened again then. No
 * compiler warns where this status is dropped, since a program that opened the object knows it. DYM_STATE: it was closed.
 */
DYM_API dym_status dym_close(dym_object *object);

/* *heap is the version, the quota and the held segments of an object. This is no command. */
DYM_NODISCARD DYM_API dym_status dym_inspect(const dym_object *object, dym_heap *heap);

/* *bytes is how many bytes an object has in use. It asks each live chunk for its length. This is no command. That the numbers are right is tested;
 * proved is that it changes neither heap nor logs. */
DYM_NODISCARD DYM_API dym_status dym_usage(const dym_object *object, dym_bytes *bytes);

/* ---- chunks
 * Each of these answers DYM_BAD if a handle's exponent is that of no class (nil is allowed where it is said), and, but for the last two,
 * DYM_SPENT. */

/* A fresh chunk of zero bytes: the free one with the least index in the class of the length, which may be 0. *chunk is its handle.
 * DYM_TOO_LARGE, DYM_QUOTA. */
DYM_NODISCARD DYM_API dym_status dym_malloc(dym_object *object, uint64_t length, dym_handle *chunk);

/* The same for count * length bytes, also where that product is above 2^64. */
DYM_NODISCARD DYM_API dym_status dym_calloc(dym_object *object, uint64_t count, uint64_t length, dym_handle *chunk);

/*
 * Gives a chunk another length: its bytes stay up to the smaller length, and zeros follow. *moved is its handle then: the same if the class
 * is the same; else the old handle is dead, and the quota has to allow both chunks for a moment. For nil this is dym_malloc, whatever the
 * length; else a length of 0 frees the chunk, and *moved is nil.
 * DYM_DEAD, DYM_TOO_LARGE, DYM_QUOTA.
 */
DYM_NODISCARD DYM_API dym_status dym_realloc(dym_object *object, dym_handle chunk, uint64_t length, dym_handle *moved);

/* Frees a chunk; for nil does nothing. DYM_DEAD. */
DYM_NODISCARD DYM_API dym_status dym_free(dym_object *object, dym_handle chunk);

/* Writes `length` bytes into a chunk, from its place `at` on. DYM_DEAD, DYM_RANGE. */
DYM_NODISCARD DYM_API dym_status dym_write(dym_object *object, dym_handle chunk, uint32_t at, const void *bytes, size_t length);

/* Makes `length` bytes of a chunk from its place `at` on `byte`. DYM_DEAD, DYM_RANGE. */
DYM_NODISCARD DYM_API dym_status dym_fill(dym_object *object, dym_handle chunk, uint32_t at, uint32_t length, uint8_t byte);

/* Copies `length` bytes of a chunk, from its place `at` on, to `bytes`. DYM_DEAD, DYM_RANGE. */
DYM_NODISCARD DYM_API dym_status dym_read(const dym_object *object, dym_handle chunk, uint32_t at, void *bytes, size_t length);

/* Writes the number of a handle, which may be nil and needn't be live, into eight bytes of a chunk from its place `at` on.
 * DYM_DEAD, DYM_RANGE. */
DYM_NODISCARD DYM_API dym_status dym_link(dym_object *object, dym_handle chunk, uint32_t at, dym_handle to);

/* *found is what eight bytes of a chunk from its place `at` on name. DYM_DEAD, DYM_RANGE. */
DYM_NODISCARD DYM_API dym_status dym_follow(const dym_object *object, dym_handle chunk, uint32_t at, dym_found *found);

/* *total is the sum of a chunk's bytes as numbers. DYM_DEAD. */
DYM_NODISCARD DYM_API dym_status dym_sum(const dym_object *object, dym_handle chunk, uint64_t *total);

/* *length is a chunk's length in bytes. This is no command: it isn't counted, and never answers DYM_SPENT. DYM_DEAD. */
DYM_NODISCARD DYM_API dym_status dym_size(const dym_object *object, dym_handle chunk, uint32_t *length);

/* *next is the first live chunk after `after`, which needn't be live, in the order of exponents and then of indices; after nil it is the
 * first of all; if there is none it is nil. This is no command either. */
DYM_NODISCARD DYM_API dym_status dym_next(const dym_object *object, dym_handle after, dym_handle *next);

/* ---- chunks in place
 * Each of these answers DYM_BAD if a handle's exponent is that of no class. What a pointer is good for, and until when, is told at the
 * beginning. */

/* *address is where a chunk lies, to be read there. This is no command. DYM_DEAD. */
DYM_NODISCARD DYM_API dym_status dym_address(const dym_object *object, dym_handle chunk, const void **address);

/*
 * The same, to be read and written there from then on: the chunk is touched, which keeps what stands in it, so this call comes before the first
 * write. It counts as a dym_write of all its bytes as they stand there, and is a command like it: DYM_SPENT, DYM_DEAD. A chunk of length 0 has no
 * byte to be written, and this doesn't touch it. `address` may be null.
 */
DYM_NODISCARD DYM_API dym_status dym_touch(dym_object *object, dym_handle chunk, void **address);

/* Touches every live chunk, which keeps all their bytes: for code that writes wherever it likes, as an interpreter that runs inside an object.
 * Such code needs it after each log, restore and load, before it writes. This is no command. */
DYM_NODISCARD DYM_API dym_status dym_touch_all(dym_object *object);

/* Touches, before they are written, each live chunk of which a byte lies in the object's block in the `length` bytes from `offset` on; what else
 * lies there, and a length of 0, is passed over. Where the length isn't known before the write, name more: a chunk ends no later than 65,536
 * bytes on. This is no command. */
DYM_NODISCARD DYM_API dym_status dym_wrote_offset(dym_object *object, uint64_t offset, uint64_t length);

/*
 * Finds what was written by a pointer and not touched before: *chunk is the first chunk of the newest log that a restore would bring back with
 * other bytes than it had at that log, by the copy that was made then; or one that was so when a log or a restore came since, which is told once.
 * It is nil if there is none, which is so while C keeps what it owes. So it can be called after each event, to find which one it was, or now and
 * then. It takes the time of a comparison of the whole heap. This is no command. That it finds what it should is tested; proved is that it changes
 * neither heap nor logs.
 * DYM_BAD: the object was opened by dym_open or dym_load. DYM_MEMORY: the copy could not be made. Which objects answer these is tested, too.
 */
DYM_NODISCARD DYM_API dym_status dym_untold(const dym_object *object, dym_handle *chunk);

/* *start is where the object's block begins. This is no command. */
DYM_NODISCARD DYM_API dym_status dym_start(const dym_object *object, const void **start);

/* *chunk is the live chunk in which the byte lies that is `offset` bytes into the object's block. This is no command. DYM_DEAD: there
 * is none. */
DYM_NODISCARD DYM_API dym_status dym_handle_offset(const dym_object *object, uint64_t offset, dym_handle *chunk);

/* *chunk is the live chunk in which an address lies. DYM_DEAD: it lies in none of this object. */
DYM_NODISCARD static inline dym_status dym_at(const dym_object *object, const void *address, dym_handle *chunk)
{
    const void *start;
    dym_status status = dym_start(object, &start);
    if (status != DYM_DONE)
        return status;
    if ((uintptr_t)address < (uintptr_t)start)
        return DYM_DEAD;
    return dym_handle_offset(object, (uintptr_t)address - (uintptr_t)start, chunk);
}

/* Touches each live chunk of which a byte lies in the `length` bytes from an address on, before these are written: dym_wrote_offset. */
DYM_NODISCARD static inline dym_status dym_wrote(dym_object *object, const void *address, size_t length)
{
    const void *start;
    uintptr_t before;
    dym_status status = dym_start(object, &start);
    if (status != DYM_DONE || (uintptr_t)address >= (uintptr_t)start)
        return status != DYM_DONE ? status : dym_wrote_offset(object, (uintptr_t)address - (uintptr_t)start, length);
    before = (uintptr_t)start - (uintptr_t)address;
    return dym_wrote_offset(object, 0, length > before ? length - before : 0);
}

/* dym_malloc, and where the chunk lies, which is touched. `chunk` may be null. */
DYM_NODISCARD static inline dym_status dym_malloc_at(dym_object *object, uint64_t length, dym_handle *chunk, void **address)
{
    const void *place = NULL;
    dym_handle made = {0, 0};
    dym_status status = dym_malloc(object, length, &made);
    if (status == DYM_DONE)
        status = dym_address(object, made, &place);
    if (status == DYM_DONE)
        *address = (void *)(uintptr_t)place;
    if (status == DYM_DONE && chunk != NULL)
        *chunk = made;
    return status;
}

/* dym_calloc, and where the chunk lies, which is touched. `chunk` may be null. */
DYM_NODISCARD static inline dym_status dym_calloc_at(dym_object *object, uint64_t count, uint64_t length, dym_handle *chunk,
                                                     void **address)
{
    const void *place = NULL;
    dym_handle made = {0, 0};
    dym_status status = dym_calloc(object, count, length, &made);
    if (status == DYM_DONE)
        status = dym_address(object, made, &place);
    if (status == DYM_DONE)
        *address = (void *)(uintptr_t)place;
    if (status == DYM_DONE && chunk != NULL)
        *chunk = made;
    return status;
}

/* dym_realloc, and then dym_touch of *moved: *address is where that chunk lies, or null if the old one was freed. These are two commands:
 * if the second answers DYM_SPENT, the chunk has its new length and *moved is its handle all the same. */
DYM_NODISCARD static inline dym_status dym_realloc_at(dym_object *object, dym_handle chunk, uint64_t length, dym_handle *moved,
                                                      void **address)
{
    dym_status status = dym_realloc(object, chunk, length, moved);
    if (status != DYM_DONE)
        return status;
    if (!dym_same(*moved, dym_nil))
        return dym_touch(object, *moved, address);
    *address = NULL;
    return DYM_DONE;
}

/*
 * *hash is a number of the live heap, so that a simulator compares two runs by one call: FNV-1a of 64 bits over each live chunk in the order
 * of dym_next, of the number of its handle as eight bytes and its length as four, the least byte first, and its bytes. Heaps with the same
 * live chunks and bytes have the same hash, whatever their logs and addresses; so a state that has pointers in it, which differ from run to
 * run, is compared otherwise. It reads every byte of the heap. This is no command.
 */
DYM_NODISCARD static inline dym_status dym_hash(const dym_object *object, uint64_t *hash)
{
    uint64_t found = UINT64_C(14695981039346656037);
    dym_handle chunk = {0, 0};
    dym_status status = dym_next(object, chunk, &chunk);
    while (status == DYM_DONE && !dym_same(chunk, dym_nil)) {
        const void *address = NULL;
        const unsigned char *bytes;
        uint32_t length = 0, k;
        status = dym_size(object, chunk, &length);
        if (status == DYM_DONE)
            status = dym_address(object, chunk, &address);
        if (status != DYM_DONE)
            return status;
        bytes = (const unsigned char *)address;
        for (k = 0; k < 8; k++)
            found = (found ^ (dym_number(chunk) >> 8 * k & 255)) * UINT64_C(1099511628211);
        for (k = 0; k < 4; k++)
            found = (found ^ (length >> 8 * k & 255)) * UINT64_C(1099511628211);
        for (k = 0; k < length; k++)
            found = (found ^ bytes[k]) * UINT64_C(1099511628211);
        status = dym_next(object, chunk, &chunk);
    }
    if (status == DYM_DONE)
        *hash = found;
    return status;
}

/* ---- logs
 * Each of these answers DYM_SPENT, but for the last three, which are no commands. */

/*
 * Logs the heap at a simulation time, which is any number above that of the newest log. No chunk is touched from then on. A log is full,
 * whatever kind is asked, if there is none before it or 31 incremental ones follow the last full one. *logged is the kind of this one; `logged`
 * may be null.
 * DYM_BAD: the kind is neither 0 nor 1. DYM_NOT_AFTER, DYM_LOGS_FULL. DYM_MEMORY: nothing was logged.
 */
DYM_NODISCARD DYM_API dym_status dym_log(dym_object *object, uint32_t kind, uint64_t time, uint32_t *logged);

/* Brings the heap back to the newest log at or before a time, which stays, and drops the logs after it. No chunk is touched from then on.
 * *restored is its time; `restored` may be null. DYM_NO_LOG. */
DYM_NODISCARD DYM_API dym_status dym_restore(dym_object *object, uint64_t time, uint64_t *restored);

/* The same with the newest log before a time, of which there is none at time 0. `restored` may be null. DYM_NO_LOG. */
DYM_NODISCARD DYM_API dym_status dym_restore_before(dym_object *object, uint64_t time, uint64_t *restored);

/* Keeps the newest log at or before `bound`, so that it can still be restored, and drops those before it. *dropped is how many; it may
 * be 0; `dropped` may be null. For a GVT, at which an event may still come, use dym_prune_before: this call may keep only a log at GVT
 * itself. */
DYM_NODISCARD DYM_API dym_status dym_prune(dym_object *object, uint64_t bound, uint32_t *dropped);

/* Keeps the newest log before `bound`, so that dym_restore_before with that bound or a later time still finds it, and drops those before
 * it. At bound 0 it drops none. `dropped` may be null. */
DYM_NODISCARD DYM_API dym_status dym_prune_before(dym_object *object, uint64_t bound, uint32_t *dropped);

/* *slots says how many logs are kept, and how many records a script's object would have for them. */
DYM_NODISCARD DYM_API dym_status dym_logs(const dym_object *object, dym_slots *slots);

/* *time is that of a kept log, of which the oldest has place 0. DYM_NO_LOG: no log is kept at this place. */
DYM_NODISCARD DYM_API dym_status dym_log_time(const dym_object *object, uint32_t place, uint64_t *time);

/* *kind is that of a kept log, by the same places: DYM_FULL or DYM_INCREMENTAL. DYM_NO_LOG. */
DYM_NODISCARD DYM_API dym_status dym_log_kind(const dym_object *object, uint32_t place, uint32_t *kind);

/* *count is how many chunks are kept as they were at the newest log, or as made since: those that were touched, written, made or freed since it was
 * taken or brought back. So many a restore of that log looks at. It is 0 while there is no log. That the number is right is tested; proved is that
 * this changes neither heap nor logs. */
DYM_NODISCARD DYM_API dym_status dym_changed(const dym_object *object, uint64_t *count);

/* ---- checkpoint files
 * A file has the kept logs of an object, with its quota and version, under a name of 1 to 32 characters A-Z a-z 0-9 _ that isn't
 * the word object. They are in it as if they were taken again: the oldest as a full log, each other one as an incremental one of the chunks in
 * which it differs from the log before, and each 32nd as a full one. So what is loaded has the same times and brings back the same heaps: this
 * follows from the clauses of dym_save and dym_load, and is tested too. What was changed since the newest log isn't in the file. The program
 * dymelor saves and loads files of this form. The file's own numbers have their least byte first; bytes of chunks stand as they are. It has no
 * checksum. */

/*
 * Writes the file to where `bytes` begins. *length is how many bytes it has. This is no command.
 * DYM_BAD: the name is none. DYM_RANGE: the file is longer than `room`; *length is its length then too, and the
 * bytes stay as they were, so that a room of 0 asks for the length (`bytes` isn't null then either). DYM_MEMORY: whatever the room, the library
 * first makes the file in memory of its own, and beside it the file's records and three copies of the heap. It takes the time in which the heap is
 * copied and compared for each kept log.
 */
DYM_NODISCARD DYM_API dym_status dym_save(const dym_object *object, const char *name, size_t name_length, void *bytes, size_t room,
                                               uint64_t *length);

/*
 * Opens a closed object as the newest log of a file has it, with all its logs, and empty if the file has none. Its quota and version
 * are the file's. Any bytes may be handed in: where memory is there, they make an object exactly if they are a file. The name that the file has
 * isn't returned.
 * DYM_FILE: the bytes are no file, and *part is the first part that fails: 0 for the header, k for record k, and one more than there are
 * records for what follows them; `part` may be null. DYM_MEMORY: it stays closed; this may come of any bytes that begin with a good header,
 * also where the rest is no file.
 */
DYM_NODISCARD DYM_API dym_status dym_load(dym_object *object, const void *bytes, size_t length, uint32_t *part);

/*
 * Results that nobody needs: the calls of the library take no null pointer, so that these inline calls stand before those whose text says that
 * one may be null, and hand on a place of their own. A program calls dym_log, and the macro leads it here; `dym_log` without the macro, as
 * after #undef, is the library's.
 */
DYM_NODISCARD static inline dym_status dym_inline_touch(dym_object *object, dym_handle chunk, void **address)
{
    void *unread;
    return dym_touch(object, chunk, address != NULL ? address : &unread);
}

DYM_NODISCARD static inline dym_status dym_inline_log(dym_object *object, uint32_t kind, uint64_t time, uint32_t *logged)
{
    uint32_t unread;
    return dym_log(object, kind, time, logged != NULL ? logged : &unread);
}

DYM_NODISCARD static inline dym_status dym_inline_restore(dym_object *object, uint64_t time, uint64_t *restored)
{
    uint64_t unread;
    return dym_restore(object, time, restored != NULL ? restored : &unread);
}

DYM_NODISCARD static inline dym_status dym_inline_restore_before(dym_object *object, uint64_t time, uint64_t *restored)
{
    uint64_t unread;
    return dym_restore_before(object, time, restored != NULL ? restored : &unread);
}

DYM_NODISCARD static inline dym_status dym_inline_prune(dym_object *object, uint64_t bound, uint32_t *dropped)
{
    uint32_t unread;
    return dym_prune(object, bound, dropped != NULL ? dropped : &unread);
}

DYM_NODISCARD static inline dym_status dym_inline_prune_before(dym_object *object, uint64_t bound, uint32_t *dropped)
{
    uint32_t unread;
    return dym_prune_before(object, bound, dropped != NULL ? dropped : &unread);
}

DYM_NODISCARD static inline dym_status dym_inline_load(dym_object *object, const void *bytes, size_t length, uint32_t *part)
{
    uint32_t unread;
    return dym_load(object, bytes, length, part != NULL ? part : &unread);
}

#define dym_touch dym_inline_touch
#define dym_log dym_inline_log
#define dym_restore dym_inline_restore
#define dym_restore_before dym_inline_restore_before
#define dym_prune dym_inline_prune
#define dym_prune_before dym_inline_prune_before
#define dym_load dym_inline_load

#ifdef __cplusplus
}
#ifdef __clang__
#pragma clang diagnostic pop
#endif
#endif

#endif
