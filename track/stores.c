/*
 * What a model calls that dymelor-cc compiled: before a store, and in place of the C library's functions that write. All tell before they
 * store.
 */
#define _GNU_SOURCE

#include "current.h"
#include "stores.h"

#include <stdarg.h>
#include <stdio.h>
#include <stdlib.h>
#include <string.h>

/* A store into a chunk of the object, if it is live, that isn't remembered: it is touched by the library where it isn't known to be. */
static void tell_chunk(table *t, size_t offset)
{
    area *a = area_at(t, offset);
    size_t chunk = area_chunk(a, offset);
    if (!area_knows(t, a, chunk)) {
        if (!table_is_open(t) || dym_wrote_offset(dym_current.object, offset, 1) != DYM_DONE) return;
        area_note(t, a, chunk);
    }
    table_remember(t, a, offset);
}

/* A store of some bytes, which lie in one chunk. */
static inline void tell(const volatile void *address)
{
    table *t = dym_current.table;
    size_t offset = (uintptr_t)address - t->start;
    if (offset < t->size && !table_remembers(t, offset)) tell_chunk(t, offset);
}

void dym_told_range(const volatile void *address, size_t length)
{
    table *t = dym_current.table;
    size_t offset = (uintptr_t)address - t->start, end;
    if (offset >= t->size) return;
    end = length < t->size - offset ? offset + length : t->size;
    for (; offset < end; offset = area_end(area_at(t, offset), offset)) tell_chunk(t, offset);
}

#define TOLD(size) \
    void dym_told_##size(const volatile void *address) { tell(address); }
TOLD(1)
TOLD(2)
TOLD(4)
TOLD(8)
TOLD(16)

/* What the compiler calls beside stores. */
void dym_told_nothing(void)
{
}

/* ---- the C library's functions of the table `functions` that have no more than their arguments told, by their lengths */

void *dym_told_memcpy(void *to, const void *from, size_t length)
{
    dym_told_range(to, length);
    return memcpy(to, from, length);
}

void *dym_told_memmove(void *to, const void *from, size_t length)
{
    dym_told_range(to, length);
    return memmove(to, from, length);
}

void *dym_told_memset(void *to, int byte, size_t length)
{
    dym_told_range(to, length);
    return memset(to, byte, length);
}

void *dym_told_mempcpy(void *to, const void *from, size_t length)
{
    return (char *)dym_told_memcpy(to, from, length) + length;
}

void *dym_told_memccpy(void *to, const void *from, int byte, size_t most)
{
    const char *last = memchr(from, byte, most);
    dym_told_range(to, last != NULL ? (size_t)(last - (const char *)from) + 1 : most);
    return memccpy(to, from, byte, most);
}

void dym_told_bcopy(const void *from, void *to, size_t length)
{
    dym_told_memmove(to, from, length);
}

void dym_told_bzero(void *to, size_t length)
{
    dym_told_memset(to, 0, length);
}

char *dym_told_strcpy(char *to, const char *from)
{
    return dym_told_memcpy(to, from, strlen(from) + 1);
}

char *dym_told_stpcpy(char *to, const char *from)
{
    size_t length = strlen(from);
    return (char *)dym_told_memcpy(to, from, length + 1) + length;
}

char *dym_told_strncpy(char *to, const char *from, size_t room)
{
    dym_told_range(to, room);
    return strncpy(to, from, room);
}

char *dym_told_stpncpy(char *to, const char *from, size_t room)
{
    dym_told_range(to, room);
    return stpncpy(to, from, room);
}

char *dym_told_strcat(char *to, const char *from)
{
    dym_told_strcpy(to + strlen(to), from);
    return to;
}

char *dym_told_strncat(char *to, const char *from, size_t most)
{
    dym_told_range(to + strlen(to), strnlen(from, most) + 1);
    return strncat(to, from, most);
}

/* ---- functions that keep a place in a text, which they cut into words */

char *dym_told_strtok_r(char *text, const char *ends, char **rest)
{
    tell(rest);
    tell(text != NULL ? text : *rest);
    return strtok_r(text, ends, rest);
}

char *dym_told_strtok(char *text, const char *ends)
{
    static _Thread_local char *rest;
    return dym_told_strtok_r(text, ends, &rest);
}

char *dym_told_strsep(char **text, const char *ends)
{
    tell(text);
    if (*text != NULL) tell(*text);
    return strsep(text, ends);
}

/* ---- functions whose arguments point to pointers to what they write */

int dym_told_random_r(struct random_data *data, int32_t *number)
{
    tell(data);
    tell(data->state);
    tell(number);
    return random_r(data, number);
}

int dym_told_srandom_r(unsigned seed, struct random_data *data)
{
    tell(data);
    tell(data->state);
    return srandom_r(seed, data);
}

/* It also writes into the state that the generator had before, if any. */
int dym_told_initstate_r(unsigned seed, char *state, size_t length, struct random_data *data)
{
    tell(state);
    tell(data);
    tell(data->state);
    return initstate_r(seed, state, length, data);
}

/* ---- functions that read values by a format */

/* Where the conversion ends that begins behind a %; `is_stored` says whether it takes a pointer. */
static const char *end_of_conversion(const char *format, int *is_stored)
{
    *is_stored = *format != '*' && *format != '%';
    format += strspn(format, "*'0123456789$mIhljztLq");
    if (*format == '\0' || *format != '[') return *format == '\0' ? format : format + 1;
    format += format[1] == '^' ? 2 : 1;
    if (*format == ']') format++;
    format += strcspn(format, "]");
    return *format == '\0' ? format : format + 1;
}

/* Tells what the pointers point to that a format of scanf stores by. */
static void tell_scanned(const char *format, va_list pointers)
{
    va_list again;
    va_copy(again, pointers);
    while (*format != '\0') {
        int is_stored = 0;
        if (*format++ != '%') continue;
        format = end_of_conversion(format, &is_stored);
        if (is_stored) tell(va_arg(again, void *));
    }
    va_end(again);
}

int dym_told_vsscanf(const char *from, const char *format, va_list pointers)
{
    tell_scanned(format, pointers);
    return vsscanf(from, format, pointers);
}

int dym_told_vfscanf(FILE *file, const char *format, va_list pointers)
{
    tell_scanned(format, pointers);
    return vfscanf(file, format, pointers);
}

int dym_told_sscanf(const char *from, const char *format, ...)
{
    va_list pointers;
    int count;
    va_start(pointers, format);
    count = dym_told_vsscanf(from, format, pointers);
    va_end(pointers);
    return count;
}

int dym_told_fscanf(FILE *file, const char *format, ...)
{
    va_list pointers;
    int count;
    va_start(pointers, format);
    count = dym_told_vfscanf(file, format, pointers);
    va_end(pointers);
    return count;
}

/* The names that the header of a C library gives them. */
#define SAME_AS(name) __attribute__((alias("dym_told_" name)))
int dym_told___isoc99_vsscanf(const char *from, const char *format, va_list pointers) SAME_AS("vsscanf");
int dym_told___isoc99_vfscanf(FILE *file, const char *format, va_list pointers) SAME_AS("vfscanf");
int dym_told___isoc99_sscanf(const char *from, const char *format, ...) SAME_AS("sscanf");
int dym_told___isoc99_fscanf(FILE *file, const char *format, ...) SAME_AS("fscanf");
int dym_told___isoc23_vsscanf(const char *from, const char *format, va_list pointers) SAME_AS("vsscanf");
int dym_told___isoc23_vfscanf(FILE *file, const char *format, va_list pointers) SAME_AS("vfscanf");
int dym_told___isoc23_sscanf(const char *from, const char *format, ...) SAME_AS("sscanf");
int dym_told___isoc23_fscanf(FILE *file, const char *format, ...) SAME_AS("fscanf");
