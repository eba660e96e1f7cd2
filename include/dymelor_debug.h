/*
 * dymelor_debug.h: freed, moved and undone chunks are filled, to find pointers that are used after their chunk is gone.
 *
 * A kernel or a model that keeps a pointer to a chunk that was freed, or that a restore undid, most often reads there what stood in the chunk,
 * and nothing tells of it until another chunk takes its place. Compiled with this header, a free fills the chunk before it is freed, as does a
 * realloc that frees or moves it, and a restore fills every live chunk before it brings the heap back; what the log has gets its bytes back then,
 * and what it doesn't have stays filled. So such a pointer reads bytes DYM_FILLED, and one that is taken from there leads nowhere. No source has to
 * be changed:
 *
 *     cc -include dymelor_debug.h ..          or this header, included behind dymelor.h and before dymelor.hpp
 *
 * dym_free, dym_realloc, dym_realloc_at, dym_restore and dym_restore_before are then the calls that stand here, which answer and bring back what
 * the library's do. They are inline C over the library's calls, write into live and touched chunks alone, and are tested. A free counts two
 * commands, a realloc that moves a chunk three, and a restore takes the time and the memory of a copy of all live chunks. Chunks of objects that
 * dym_open_checked opened are filled as well, and dym_untold finds what it did.
 *
 * Not filled is what a process (dymelor_process.h) rolls back, since it restores inside the library, nor the end of a chunk that a realloc
 * shortens where it lies. What a dead chunk holds is promised by no call: it is filled until a later chunk, of zero bytes, takes its place.
 */
#ifndef DYMELOR_DEBUG_H
#define DYMELOR_DEBUG_H

#include "dymelor.h"

/* What a chunk is filled with: as a pointer it leads nowhere, as a number it is seen, and it is no character. */
#ifndef DYM_FILLED
#define DYM_FILLED 0xA5
#endif

#ifdef __cplusplus
#ifdef __clang__ /* C's casts and null pointers, which a program may have warnings for */
#pragma clang diagnostic push
#pragma clang diagnostic ignored "-Wold-style-cast"
#pragma clang diagnostic ignored "-Wzero-as-null-pointer-constant"
#endif
extern "C" {
#endif

/* dym_free of a chunk whose bytes are DYM_FILLED then. */
DYM_NODISCARD static inline dym_status dym_free_filled(dym_object *object, dym_handle chunk)
{
    uint32_t length;
    dym_status status = DYM_DONE;
    if (!dym_same(chunk, dym_nil) && dym_size(object, chunk, &length) == DYM_DONE)
        status = dym_fill(object, chunk, 0, length, DYM_FILLED);
    return status == DYM_DONE ? dym_free(object, chunk) : status;
}

/* Whether a live chunk stays where it is when it is given another length: it isn't freed, and the class is the same. */
static inline int dym_stays(dym_handle chunk, uint64_t length)
{
    uint64_t most = UINT64_C(1) << chunk.exponent;
    return length > 0 && length <= most && (length > most / 2 || chunk.exponent == 5);
}

/* dym_realloc; where it frees or moves the chunk, that is filled then. A move is a dym_malloc, a copy and a free. */
DYM_NODISCARD static inline dym_status dym_realloc_filled(dym_object *object, dym_handle chunk, uint64_t length, dym_handle *moved)
{
    const void *from = NULL;
    void *to = NULL;
    uint32_t had = 0, has = 0;
    dym_handle made = {0, 0};
    dym_status status = DYM_DONE;
    if (dym_same(chunk, dym_nil) || dym_size(object, chunk, &had) != DYM_DONE || dym_stays(chunk, length))
        return dym_realloc(object, chunk, length, moved);
    if (length > 0)
        status = dym_malloc_at(object, length, &made, &to);
    if (status == DYM_DONE && length > 0)
        status = dym_size(object, made, &has);
    if (status == DYM_DONE)
        status = dym_address(object, chunk, &from);
    if (status == DYM_DONE && length > 0)
        memcpy(to, from, had < has ? had : has);
    if (status == DYM_DONE)
        status = dym_free_filled(object, chunk);
    if (status == DYM_DONE)
        *moved = made;
    return status;
}

/* The same, and then dym_touch of *moved. */
DYM_NODISCARD static inline dym_status dym_realloc_at_filled(dym_object *object, dym_handle chunk, uint64_t length, dym_handle *moved,
                                                             void **address)
{
    dym_status status = dym_realloc_filled(object, chunk, length, moved);
    if (status != DYM_DONE)
        return status;
    if (!dym_same(*moved, dym_nil))
        return dym_touch(object, *moved, address);
    *address = NULL;
    return DYM_DONE;
}

/* Fills every live chunk, after a touch, so that a restore brings back what stood there. */
DYM_NODISCARD static inline dym_status dym_fill_live(dym_object *object)
{
    dym_handle chunk = {0, 0};
    dym_status status = dym_touch_all(object);
    if (status == DYM_DONE)
        status = dym_next(object, chunk, &chunk);
    while (status == DYM_DONE && !dym_same(chunk, dym_nil)) {
        const void *address = NULL;
        uint32_t length = 0;
        status = dym_size(object, chunk, &length);
        if (status == DYM_DONE)
            status = dym_address(object, chunk, &address);
        if (status != DYM_DONE)
            return status;
        memset((void *)(uintptr_t)address, DYM_FILLED, length);
        status = dym_next(object, chunk, &chunk);
    }
    return status;
}

/* dym_restore; what was live before and isn't then is filled. Where no log is at or before the time, nothing is filled. */
DYM_NODISCARD static inline dym_status dym_restore_filled(dym_object *object, uint64_t time, uint64_t *restored)
{
    uint64_t oldest;
    dym_status status = DYM_DONE;
    if (dym_log_time(object, 0, &oldest) == DYM_DONE && oldest <= time)
        status = dym_fill_live(object);
    return status == DYM_DONE ? dym_restore(object, time, restored) : status;
}

/* The same by dym_restore_before. */
DYM_NODISCARD static inline dym_status dym_restore_before_filled(dym_object *object, uint64_t time, uint64_t *restored)
{
    uint64_t oldest;
    dym_status status = DYM_DONE;
    if (dym_log_time(object, 0, &oldest) == DYM_DONE && oldest < time)
        status = dym_fill_live(object);
    return status == DYM_DONE ? dym_restore_before(object, time, restored) : status;
}

#undef dym_restore
#undef dym_restore_before
#define dym_free dym_free_filled
#define dym_realloc dym_realloc_filled
#define dym_realloc_at dym_realloc_at_filled
#define dym_restore dym_restore_filled
#define dym_restore_before dym_restore_before_filled

#ifdef __cplusplus
}
#ifdef __clang__
#pragma clang diagnostic pop
#endif
#endif

#endif
