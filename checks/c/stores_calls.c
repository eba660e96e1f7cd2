/*
 * A model whose chunks are written by functions of libraries alone: one way for each function of the table track/functions that is called from C, by
 * its name. Where such a function may write what was there, the way changes a byte after the call.
 */
#define _GNU_SOURCE

#include "stores.h"

#include <arpa/inet.h>
#include <fcntl.h>
#include <inttypes.h>
#include <math.h>
#include <setjmp.h>
#include <stdarg.h>
#include <stdio.h>
#include <stdlib.h>
#include <string.h>
#include <strings.h>
#include <sys/random.h>
#include <sys/socket.h>
#include <sys/stat.h>
#include <sys/time.h>
#include <time.h>
#include <unistd.h>
#include <wchar.h>

enum { TEXT = 64 };

static _Thread_local char own_text[TEXT];
static _Thread_local wchar_t own_wide[TEXT];

/* A text that begins otherwise than a chunk does. */
static const char *other(const void *chunk, uint32_t draw)
{
    snprintf(own_text, TEXT, "%c%u,%u", *(const char *)chunk == 'x' ? 'y' : 'x', draw % 100000, draw % 7);
    return own_text;
}

static const wchar_t *wide(const void *chunk, uint32_t draw)
{
    const char *text = other(chunk, draw);
    for (size_t k = 0; k < TEXT; k++) own_wide[k] = (unsigned char)text[k];
    return own_wide;
}

static size_t length_of(const char *text)
{
    return strlen(text) + 1;
}

/* A byte of what was written changes, so that the next call changes it too. */
static void vary(void *chunk, uint32_t draw)
{
    *(uint8_t *)chunk ^= (uint8_t)(draw | 1);
}

#define CALL(name) static void call_##name(void *chunk, uint32_t draw)
/* One that needs no more than the chunk, a text and its length. */
#define CALL_TEXT(name, ...) \
    CALL(name) \
    { \
        char *to = chunk; \
        const char *from = other(chunk, draw); \
        size_t length = length_of(from); \
        (void)to; \
        (void)length; \
        (void)__VA_ARGS__; \
    }
#define CALL_WIDE(name, ...) \
    CALL(name) \
    { \
        wchar_t *to = chunk; \
        const wchar_t *from = wide(chunk, draw); \
        size_t length = wcslen(from) + 1; \
        (void)to; \
        (void)length; \
        (void)__VA_ARGS__; \
    }
/* One whose result may be what was there. */
#define CALL_VARIED(name, ...) \
    CALL(name) \
    { \
        (void)__VA_ARGS__; \
        vary(chunk, draw); \
    }

CALL_TEXT(memcpy, memcpy(to, from, length))
CALL_TEXT(memmove, memmove(to, from, length))
CALL_TEXT(memset, memset(to, from[0], length))
CALL_TEXT(mempcpy, mempcpy(to, from, length))
CALL_TEXT(memccpy, memccpy(to, from, ',', length))
CALL_TEXT(bcopy, (bcopy(from, to, length), 0))
CALL_TEXT(strcpy, strcpy(to, from))
CALL_TEXT(stpcpy, stpcpy(to, from)[-1])
CALL_TEXT(strncpy, strncpy(to, from, TEXT))
CALL_TEXT(stpncpy, stpncpy(to, from, TEXT)[-1])
CALL_TEXT(sprintf, sprintf(to, "%s.", from))
CALL_TEXT(snprintf, snprintf(to, 90, "%s %g", from, draw * 0.5))
CALL_TEXT(strxfrm, strxfrm(to, from, TEXT))
CALL_TEXT(mbstowcs, mbstowcs(chunk, from, 20))
CALL_TEXT(mbtowc, mbtowc(chunk, from, length))
CALL_TEXT(sscanf, sscanf(from, "%1[xy]%u,%*d", to, (unsigned *)(to + 4)))
CALL_WIDE(wmemcpy, wmemcpy(to, from, length))
CALL_WIDE(wmemmove, wmemmove(to, from, length))
CALL_WIDE(wmemset, wmemset(to, from[0], length))
CALL_WIDE(wmempcpy, wmempcpy(to, from, length))
CALL_WIDE(wcscpy, wcscpy(to, from))
CALL_WIDE(wcpcpy, wcpcpy(to, from))
CALL_WIDE(wcsncpy, wcsncpy(to, from, 30))
CALL_WIDE(wcpncpy, wcpncpy(to, from, 30))
CALL_WIDE(swprintf, swprintf(to, 30, L"%ls.", from))
CALL_WIDE(wcstombs, wcstombs(chunk, from, TEXT))

CALL(bzero)
{
    bzero(chunk, 1 + draw % 60);
    vary(chunk, draw);
}

CALL(explicit_bzero)
{
    explicit_bzero(chunk, 1 + draw % 60);
    vary(chunk, draw);
}

CALL(strcat)
{
    char *to = chunk;
    if (strlen(to) > 100)
        strcpy(to, "");
    else
        strcat(to, other(chunk, draw));
}

CALL(strncat)
{
    char *to = chunk;
    if (strlen(to) > 100)
        strcpy(to, "");
    else
        strncat(to, &"a text, of which some"[draw % 9], 1 + draw % 5);
}

CALL(wcscat)
{
    wchar_t *to = chunk;
    if (wcslen(to) > 20)
        *to = L'\0';
    else
        wcscat(to, wide(chunk, draw));
}

CALL(wcsncat)
{
    wchar_t *to = chunk;
    if (wcslen(to) > 20)
        *to = L'\0';
    else
        wcsncat(to, wide(chunk, draw), 4);
}

CALL(strtok)
{
    char *to = chunk;
    if (strchr(to, ',') == NULL)
        strcpy(to, other(chunk, draw));
    else if (draw % 2 == 0)
        strtok(to, ",");
    else
        to[strlen(to) - 1]++;
}

/* A text, and the place in it that a function keeps. */
typedef struct words {
    char *rest, text[TEXT];
} words;

CALL(strtok_r)
{
    words *w = chunk;
    if (strchr(w->text, ',') == NULL)
        strcpy(w->text, other(w->text, draw));
    else
        strtok_r(w->text, ",", &w->rest);
}

CALL(strsep)
{
    words *w = chunk;
    if (w->rest == NULL) {
        strcpy(w->text, other(w->text, draw));
        w->rest = w->text;
    } else {
        strsep(&w->rest, ",");
    }
}

static int printed(int (*print)(char *, size_t, const char *, va_list), char *to, const char *format, ...)
{
    va_list values;
    int length;
    va_start(values, format);
    length = print != NULL ? print(to, 30, format, values) : vsprintf(to, format, values);
    va_end(values);
    return length;
}

CALL_TEXT(vsprintf, printed(NULL, to, "%s", from))
CALL_TEXT(vsnprintf, printed(vsnprintf, to, "%s-", from))

static int printed_wide(wchar_t *to, const wchar_t *format, ...)
{
    va_list values;
    int length;
    va_start(values, format);
    length = vswprintf(to, 30, format, values);
    va_end(values);
    return length;
}

CALL_WIDE(vswprintf, printed_wide(to, L"%ls", from))

static int scanned(const char *text, FILE *file, const char *format, ...)
{
    va_list pointers;
    int count;
    va_start(pointers, format);
    count = file != NULL ? vfscanf(file, format, pointers) : vsscanf(text, format, pointers);
    va_end(pointers);
    return count;
}

CALL_TEXT(vsscanf, scanned(from, NULL, "%c%u,%n", to, (unsigned *)(to + 4), (int *)(to + 8)))

/* One that reads a file of one line. */
#define CALL_FILE(name, ...) \
    CALL(name) \
    { \
        FILE *file = file_of(other(chunk, draw)); \
        char *to = chunk; \
        if (file == NULL) return; \
        (void)__VA_ARGS__; \
        fclose(file); \
    }
CALL_FILE(fscanf, fscanf(file, "%c%u", to, (unsigned *)(to + 4)))
CALL_FILE(vfscanf, scanned(NULL, file, "%c%u", to, (unsigned *)(to + 4)))
CALL_FILE(fread, fread(to, 1, 20, file))
CALL_FILE(fgets, fgets(to, 30, file))

/* A line that a function allocates, with its size; it is freed again, so that what a rollback brings back is null. */
typedef struct line {
    char *text;
    size_t size;
    uint32_t draw;
} line;

static void drop_line(line *l, uint32_t draw)
{
    free(l->text);
    l->text = NULL;
    l->size = 0;
    l->draw = draw;
}

CALL(getline)
{
    line *l = chunk;
    FILE *file = file_of("a line");
    if (file == NULL || getline(&l->text, &l->size, file) < 0) abort();
    drop_line(l, draw);
    fclose(file);
}

CALL(getdelim)
{
    line *l = chunk;
    FILE *file = file_of("a line");
    if (file == NULL || getdelim(&l->text, &l->size, ' ', file) < 0) abort();
    drop_line(l, draw);
    fclose(file);
}

/* One that reads a file that is open. */
#define CALL_OPEN(name, ...) \
    CALL(name) \
    { \
        int file = open("/proc/self/exe", O_RDONLY); \
        if (file < 0) return; \
        (void)__VA_ARGS__; \
        vary(chunk, draw); \
        close(file); \
    }
CALL_OPEN(read, read(file, chunk, 20))
CALL_OPEN(pread, pread(file, chunk, 20, draw % 4000))
CALL_OPEN(fstat, fstat(file, chunk))

CALL(recv)
{
    int ends[2];
    if (socketpair(AF_UNIX, SOCK_STREAM, 0, ends) != 0) return;
    if (send(ends[0], other(chunk, draw), 8, 0) == 8) (void)recv(ends[1], chunk, 8, 0);
    close(ends[0]);
    close(ends[1]);
}

CALL(socketpair)
{
    int *ends = chunk;
    if (socketpair(AF_UNIX, SOCK_STREAM, 0, ends) != 0) return;
    close(ends[0]);
    close(ends[1]);
    vary(chunk, draw);
}

CALL_VARIED(stat, stat("/", chunk))
CALL_VARIED(lstat, lstat("/proc/self", chunk))
CALL_VARIED(realpath, realpath("/proc/self", chunk))
CALL_VARIED(readlink, readlink("/proc/self/exe", chunk, TEXT))
CALL_VARIED(getcwd, getcwd(chunk, 4096))
CALL_VARIED(time, time(chunk))
CALL_VARIED(timespec_get, timespec_get(chunk, TIME_UTC))
CALL_VARIED(gettimeofday, gettimeofday(chunk, NULL))
CALL_VARIED(clock_gettime, clock_gettime(CLOCK_REALTIME, chunk))
CALL_VARIED(getrandom, getrandom(chunk, 16, 0))
CALL_VARIED(getentropy, getentropy(chunk, 16))

CALL(nanosleep)
{
    const struct timespec moment = {0, 1};
    nanosleep(&moment, chunk);
    vary(chunk, draw);
}

static const time_t *a_time(uint32_t draw)
{
    static _Thread_local time_t t;
    t = (time_t)draw;
    return &t;
}

CALL_VARIED(gmtime_r, gmtime_r(a_time(draw), chunk))
CALL_VARIED(localtime_r, localtime_r(a_time(draw), chunk))
CALL_VARIED(ctime_r, ctime_r(a_time(draw), chunk))
CALL_VARIED(asctime_r, asctime_r(gmtime(a_time(draw)), chunk))
CALL_VARIED(strftime, strftime(chunk, TEXT, "%Y %S", gmtime(a_time(draw))))
/* What was varied is no time of a day, and is made one. */
CALL_VARIED(mktime, mktime(chunk))
CALL_VARIED(timegm, timegm(chunk))
CALL_VARIED(strptime, strptime("12:34:56", "%H:%M:%S", chunk))
CALL_VARIED(inet_ntop, inet_ntop(AF_INET, &draw, chunk, TEXT))

/* Numbers that end at other places. */
static const char *const digits[] = {"1", "22", "333", "4.5"};
#define CALL_NUMBER(name, ...) CALL_VARIED(name, name(digits[draw % 4], chunk __VA_ARGS__))
CALL_NUMBER(strtol, , 10)
CALL_NUMBER(strtoul, , 10)
CALL_NUMBER(strtoll, , 10)
CALL_NUMBER(strtoull, , 10)
CALL_NUMBER(strtoimax, , 10)
CALL_NUMBER(strtoumax, , 10)
CALL_NUMBER(strtod, )
CALL_NUMBER(strtof, )
CALL_NUMBER(strtold, )

CALL_VARIED(wctomb, wctomb(chunk, L'a' + (wchar_t)(draw % 26)))
CALL_TEXT(mbrtowc, mbrtowc(chunk, from, length, (mbstate_t *)(to + TEXT)))
CALL_VARIED(wcrtomb, wcrtomb(chunk, L'a' + (wchar_t)(draw % 26), (mbstate_t *)((char *)chunk + TEXT)))

CALL(mbsrtowcs)
{
    const char *from = other(chunk, draw);
    mbsrtowcs(chunk, &from, 20, (mbstate_t *)((char *)chunk + 2 * TEXT));
}

CALL(wcsrtombs)
{
    const wchar_t *from = wide(chunk, draw);
    wcsrtombs(chunk, &from, 20, (mbstate_t *)((char *)chunk + 2 * TEXT));
}

static int by_number(const void *a, const void *b)
{
    uint32_t x = *(const uint32_t *)a, y = *(const uint32_t *)b;
    return (x > y) - (x < y);
}

static int by_number_backwards(const void *a, const void *b, void *draw)
{
    return *(const uint32_t *)draw == 0 ? 0 : by_number(b, a);
}

CALL(qsort)
{
    uint32_t *s = chunk;
    if (s[0] >= s[9]) qsort(s, 10, sizeof *s, by_number);
    vary(s, draw);
}

CALL(qsort_r)
{
    uint32_t *s = chunk;
    if (s[0] <= s[9]) qsort_r(s, 10, sizeof *s, by_number_backwards, &draw);
    vary(s + 9, draw);
}

CALL_VARIED(rand_r, rand_r(chunk))
CALL_VARIED(erand48, erand48(chunk))
CALL_VARIED(nrand48, nrand48(chunk))
CALL_VARIED(jrand48, jrand48(chunk))
CALL_VARIED(drand48_r, drand48_r(chunk, (double *)((char *)chunk + TEXT)))
CALL_VARIED(lrand48_r, lrand48_r(chunk, (long *)((char *)chunk + TEXT)))
CALL_VARIED(mrand48_r, mrand48_r(chunk, (long *)((char *)chunk + TEXT)))

/* A generator whose state lies beside it. */
typedef struct generator {
    struct random_data data;
    char state[TEXT];
    int32_t number;
} generator;

CALL(initstate_r)
{
    generator *g = chunk;
    g->data.state = NULL;
    initstate_r(draw, g->state, sizeof g->state, &g->data);
}

CALL(random_r)
{
    generator *g = chunk;
    if (g->data.state == NULL)
        initstate_r(draw, g->state, sizeof g->state, &g->data);
    else
        random_r(&g->data, &g->number);
}

CALL(srandom_r)
{
    generator *g = chunk;
    if (g->data.state == NULL)
        initstate_r(draw, g->state, sizeof g->state, &g->data);
    else
        srandom_r(draw, &g->data);
}

CALL_VARIED(frexp, frexp(draw, chunk))
CALL_VARIED(frexpf, frexpf((float)draw, chunk))
CALL_VARIED(frexpl, frexpl(draw, chunk))
CALL_VARIED(modf, modf(draw * 1.7, chunk))
CALL_VARIED(modff, modff((float)draw * 1.7F, chunk))
CALL_VARIED(modfl, modfl(draw * 1.7L, chunk))
CALL_VARIED(remquo, remquo(draw, 3, chunk))
CALL_VARIED(remquof, remquof((float)draw, 3, chunk))
CALL_VARIED(remquol, remquol(draw, 3, chunk))
CALL_VARIED(lgamma_r, lgamma_r(draw % 9 - 8.5, chunk))

#define CALL_SINCOS(name, type) \
    CALL(name) \
    { \
        type *to = chunk; \
        name((type)draw, to, to + 1); \
        vary(chunk, draw); \
    }
CALL_SINCOS(sincos, double)
CALL_SINCOS(sincosf, float)
CALL_SINCOS(sincosl, long double)

CALL(setjmp)
{
    jmp_buf *place = chunk;
    if (setjmp(*place) == 0) vary(chunk, draw);
}

#define WAY(name) {#name, 256, call_##name}
#define LONG_WAY(name) {#name, 4096, call_##name}
const way call_ways[] = {
    WAY(memcpy), WAY(memmove), WAY(memset), WAY(mempcpy), WAY(memccpy), WAY(bcopy), WAY(bzero), WAY(explicit_bzero), WAY(strcpy),
    WAY(stpcpy), WAY(strncpy), WAY(stpncpy), WAY(strcat), WAY(strncat), WAY(strtok), WAY(strtok_r), WAY(strsep), WAY(sscanf), WAY(fscanf),
    WAY(vsscanf), WAY(vfscanf), WAY(wmemcpy), WAY(wmemmove), WAY(wmemset), WAY(wmempcpy), WAY(wcscpy), WAY(wcpcpy), WAY(wcsncpy),
    WAY(wcpncpy), WAY(wcscat), WAY(wcsncat), WAY(sprintf), WAY(snprintf), WAY(vsprintf), WAY(vsnprintf), WAY(swprintf), WAY(vswprintf),
    WAY(strftime), WAY(strxfrm), WAY(qsort), WAY(qsort_r), WAY(fread), WAY(fgets), WAY(mbstowcs), WAY(wcstombs), WAY(mbtowc), WAY(wctomb),
    LONG_WAY(getcwd), WAY(time), WAY(timespec_get), WAY(gettimeofday), WAY(mktime), WAY(timegm), WAY(read), WAY(pread), WAY(recv),
    WAY(gmtime_r), WAY(localtime_r), WAY(asctime_r), WAY(ctime_r), WAY(clock_gettime), WAY(nanosleep), LONG_WAY(realpath), WAY(readlink),
    WAY(stat), WAY(fstat), WAY(lstat), WAY(strtol), WAY(strtoul), WAY(strtoll), WAY(strtoull), WAY(strtoimax), WAY(strtoumax), WAY(strtod),
    WAY(strtof), WAY(strtold), WAY(strptime), WAY(inet_ntop), WAY(socketpair), WAY(getline), WAY(getdelim), WAY(mbsrtowcs), WAY(wcsrtombs),
    WAY(mbrtowc), WAY(wcrtomb), WAY(rand_r), WAY(erand48), WAY(nrand48), WAY(jrand48), WAY(getrandom), WAY(getentropy), WAY(random_r),
    WAY(srandom_r), WAY(initstate_r), WAY(drand48_r), WAY(lrand48_r), WAY(mrand48_r), WAY(frexp), WAY(frexpf), WAY(frexpl), WAY(modf),
    WAY(modff), WAY(modfl), WAY(remquo), WAY(remquof), WAY(remquol), WAY(lgamma_r), WAY(sincos), WAY(sincosf), WAY(sincosl), WAY(setjmp),
    {NULL, 0, NULL},
};
