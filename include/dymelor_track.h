/*
 * dymelor_track.h: a model's stores, told by the compiler, so that the model says no dym_touch.
 *
 * A model that dymelor-cc or dymelor-c++ compiled calls a function before each of its stores. Where the store is into a live chunk of the
 * object that its thread has named by dym_track, that chunk is touched, as by dym_wrote; any other store does nothing but be made. So the
 * simulator names an object before it runs an event of that object, and the model writes through plain pointers:
 *
 *     dym_track(&object);
 *     run(event);                     compiled by dymelor-cc
 *     dym_track(NULL);
 *
 * Of a process (dymelor_process.h) it is &process.object, after an event was handed out and before it is ended.
 *
 * The simulator itself needs no such compiler, but it is linked by dymelor-cc too, or with what dymelor-track.pc says: the calls that begin
 * and end a touch (dym_open, dym_open_checked, dym_load, dym_close, dym_log, dym_restore, dym_restore_before, and of dymelor_process.h
 * dym_process_open, _close, _begin and _replay) pass through libdymelor-track.a, which keeps a table of the touched chunks beside each object.
 * Without that the linker names __real_dym_log as undefined.
 *
 * Told are all stores of the model's own code, before the bytes change: those that the compiler tells, and every other one, as by assembler or
 * by intrinsics, by a call that dymelor-cc adds to what the compiler made. `dymelor-cc --untold-stores` lists these with their lines, and
 * -Werror=untold refuses them. A store to many places by one instruction (scatter) is refused, unless a comment on its line, or on the one before,
 * says that it needs no telling, since a dym_touch comes before it: dymelor: untold. The same comment, or DYM_UNTOLD before a function, leaves
 * any other such store as it is.
 *
 * Told before the call are, where a model names them, what these functions write:
 *
 *     memcpy memmove memset mempcpy memccpy bcopy bzero random_r srandom_r initstate_r strcpy stpcpy strncpy stpncpy strcat
 *     strncat strtok strtok_r strsep sscanf fscanf vsscanf vfscanf explicit_bzero wmemcpy wmemmove wmemset wmempcpy wcscpy
 *     wcpcpy wcsncpy wcpncpy wcscat wcsncat sprintf snprintf vsprintf vsnprintf swprintf vswprintf strftime strxfrm qsort
 *     qsort_r fread fgets mbstowcs wcstombs mbtowc wctomb getcwd time timespec_get gettimeofday mktime timegm read pread recv
 *     gmtime_r localtime_r asctime_r ctime_r clock_gettime nanosleep realpath readlink stat fstat lstat strtol strtoul strtoll
 *     strtoull strtoimax strtoumax strtod strtof strtold strptime inet_ntop socketpair getline getdelim mbsrtowcs wcsrtombs
 *     mbrtowc wcrtomb rand_r erand48 nrand48 jrand48 getrandom getentropy drand48_r lrand48_r mrand48_r frexp frexpf frexpl
 *     modf modff modfl remquo remquof remquol lgamma_r sincos sincosf sincosl setjmp to_chars from_chars
 *
 * Not told, so that a dym_touch, dym_wrote or dym_touch_all has to come before: what other functions write that dymelor-cc didn't compile, those
 * of libraries, and of the C++ library's own list, map and set; the number that %n of the printf functions stores; and what a function writes
 * later into memory that another was given to keep: initstate, setstate, setvbuf, setbuf, fmemopen. dym_untold finds what they wrote, where
 * dym_open_checked opened the object. What a call of dymelor.h writes to by a parameter, as *chunk, may not lie in a chunk at all.
 *
 * What C owes beside what dymelor.h says, and nothing checks: a store into an object is like a call on it, so that one thread at a time
 * makes them; an object that moved is named again; no thread stores into the chunks of a closed object. A thread that named an object which
 * is closed then may go on: its stores are told to none, until it opens the object again itself.
 */
#ifndef DYMELOR_TRACK_H
#define DYMELOR_TRACK_H

#include "dymelor.h"

#ifdef __cplusplus
#ifdef __clang__ /* C's casts and null pointers, which a program may have warnings for */
#pragma clang diagnostic push
#pragma clang diagnostic ignored "-Wold-style-cast"
#pragma clang diagnostic ignored "-Wzero-as-null-pointer-constant"
#endif
extern "C" {
#endif

/*
 * From now on the stores of this thread are told to an object, which stays where it is until the thread names another, or to none where
 * `object` is null. It takes no memory. A thread names none before it ends.
 * DYM_STATE: the object is closed; the stores are told to none.
 */
dym_status dym_track(dym_object *object);

/* Before a function: stores that the compiler doesn't tell need no telling in it. */
#define DYM_UNTOLD __attribute__((noinline, section(".text.dymelor_untold")))

#ifdef __cplusplus
}
#ifdef __clang__
#pragma clang diagnostic pop
#endif
#endif

#endif
