/*
 * The calls of dymelor.h and dymelor_process.h that begin and end a touch, on their way to the library: the linker sends a call of dym_log to
 * __wrap_dym_log, and __real_dym_log is the library's (--wrap). So no simulator can log or restore an object beside its table.
 */
#include "current.h"
#include "dymelor_process.h"
#include "dymelor_track.h"

dym_status __real_dym_open(dym_object *object, uint32_t quota, uint32_t version);
dym_status __real_dym_open_checked(dym_object *object, uint32_t quota, uint32_t version);
dym_status __real_dym_close(dym_object *object);
dym_status __real_dym_load(dym_object *object, const uint8_t *bytes, size_t length, uint32_t *part);
dym_status __real_dym_log(dym_object *object, uint32_t kind, uint64_t time, uint32_t *logged);
dym_status __real_dym_restore(dym_object *object, uint64_t time, uint64_t *restored);
dym_status __real_dym_restore_before(dym_object *object, uint64_t time, uint64_t *restored);
dym_status __real_dym_process_open(dym_process *process, const dym_process_config *config);
dym_status __real_dym_process_close(dym_process *process);
dym_status __real_dym_process_begin(dym_process *process, dym_event *event, uint32_t *how);
dym_status __real_dym_process_replay(dym_process *process, dym_event *event, uint32_t *how);

_Thread_local current dym_current = {&dym_no_table, NULL};

/* The thread names the object of a table, and none where that is null. */
static void name(table *t, dym_object *object)
{
    if (dym_current.table != &dym_no_table) dym_table_release(dym_current.table);
    dym_current.table = t != NULL ? t : &dym_no_table;
    dym_current.object = t != NULL ? object : NULL;
}

/* Whether the thread has named the open object whose block begins there. */
static int is_current(uintptr_t start)
{
    const table *t = dym_current.table;
    return t != &dym_no_table && t->start == start && table_is_open(t);
}

dym_status dym_track(dym_object *object)
{
    const void *start;
    table *t = NULL;
    if (object != NULL && dym_start(object, &start) == DYM_DONE) {
        if (is_current((uintptr_t)start)) {
            dym_current.object = object;
            return DYM_DONE;
        }
        t = dym_table_hold((uintptr_t)start);
    }
    name(t, object);
    return t != NULL || object == NULL ? DYM_DONE : DYM_STATE;
}

/* No chunk of an object counts as touched, if it is open. */
static void begin_era(const dym_object *object)
{
    const void *start;
    if (dym_start(object, &start) != DYM_DONE) return;
    if (is_current((uintptr_t)start))
        table_begin_era(dym_current.table);
    else
        dym_table_begin_era((uintptr_t)start);
}

/*
 * A table for an object that was opened. Where the thread had named it before it was closed, it names it still. DYM_MEMORY: the object is to be
 * closed again.
 */
static dym_status attach(dym_object *object)
{
    const void *start;
    dym_heap heap;
    if (dym_start(object, &start) != DYM_DONE || dym_inspect(object, &heap) != DYM_DONE ||
        dym_table_open((uintptr_t)start, heap.quota) == NULL)
        return DYM_MEMORY;
    return dym_current.object == object ? dym_track(object) : DYM_DONE;
}

/* The same of one that a call opened with this status; where memory is wanting, it is closed again. */
static dym_status attached(dym_object *object, dym_status status)
{
    if (status != DYM_DONE) return status;
    status = attach(object);
    if (status == DYM_MEMORY) __real_dym_close(object);
    return status;
}

/* An object that is closed has no table. */
static void detach(const dym_object *object)
{
    const void *start;
    if (dym_start(object, &start) == DYM_DONE) dym_table_close((uintptr_t)start);
}

dym_status __wrap_dym_open(dym_object *object, uint32_t quota, uint32_t version)
{
    return attached(object, __real_dym_open(object, quota, version));
}

dym_status __wrap_dym_open_checked(dym_object *object, uint32_t quota, uint32_t version)
{
    return attached(object, __real_dym_open_checked(object, quota, version));
}

dym_status __wrap_dym_load(dym_object *object, const uint8_t *bytes, size_t length, uint32_t *part)
{
    return attached(object, __real_dym_load(object, bytes, length, part));
}

dym_status __wrap_dym_close(dym_object *object)
{
    detach(object);
    return __real_dym_close(object);
}

dym_status __wrap_dym_log(dym_object *object, uint32_t kind, uint64_t time, uint32_t *logged)
{
    begin_era(object);
    return __real_dym_log(object, kind, time, logged);
}

dym_status __wrap_dym_restore(dym_object *object, uint64_t time, uint64_t *restored)
{
    begin_era(object);
    return __real_dym_restore(object, time, restored);
}

dym_status __wrap_dym_restore_before(dym_object *object, uint64_t time, uint64_t *restored)
{
    begin_era(object);
    return __real_dym_restore_before(object, time, restored);
}

/* ---- a process logs its object and brings it back when it hands out an event, and says so then */

dym_status __wrap_dym_process_open(dym_process *process, const dym_process_config *config)
{
    dym_status status = __real_dym_process_open(process, config);
    if (status != DYM_DONE) return status;
    status = attach(&process->object);
    if (status == DYM_MEMORY) __real_dym_process_close(process);
    return status;
}

dym_status __wrap_dym_process_close(dym_process *process)
{
    if (process->inside != NULL) detach(&process->object);
    return __real_dym_process_close(process);
}

/* No chunk counts as touched where none is, as an event that was handed out says. */
static dym_status begun(const dym_process *process, dym_status status, uint32_t how)
{
    if (status == DYM_DONE && (how & DYM_UNTOUCHED)) begin_era(&process->object);
    return status;
}

dym_status __wrap_dym_process_begin(dym_process *process, dym_event *event, uint32_t *how)
{
    dym_status status = __real_dym_process_begin(process, event, how);
    return begun(process, status, *how);
}

dym_status __wrap_dym_process_replay(dym_process *process, dym_event *event, uint32_t *how)
{
    dym_status status = __real_dym_process_replay(process, event, how);
    return begun(process, status, *how);
}
