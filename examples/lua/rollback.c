/*
 * The Lua interpreter inside an object: a library that knows nothing of logs and rollbacks, whose allocator is the object. Its whole state,
 * tables, strings, coroutines and the interpreter's own, is logged, brought back, and goes on by the same lua_State pointer.
 *
 *   cc -o rollback rollback.c $(pkg-config --cflags --libs dymelor lua5.4)
 *   ./rollback bank.lua             runs the script's 300 events, with some forty rollbacks
 *   ./rollback bank.lua straight    runs them without, and prints the same
 *
 * A script has a function `event`, which is called with 1, 2, 3 .. and a function `report`, which is called at the end. Blocks of more than
 * 65,536 bytes are no chunks, and to Lua want of memory: an error that a script can catch.
 */
#include <lauxlib.h>
#include <lua.h>
#include <lualib.h>
#include <stdio.h>
#include <stdlib.h>
#include <string.h>

#include <dymelor.h>

enum { QUOTA = 64, EVENTS = 300, ROLLBACKS = 40, LOG_EVERY = 4, BACK = 40 };

static void fail(const char *what, const char *why)
{
    fprintf(stderr, "rollback: %s: %s\n", what, why);
    exit(1);
}

static void must(dym_status status, const char *what)
{
    if (status != DYM_DONE) fail(what, dym_status_text(status));
}

/* Another length for a block that is there. To make one shorter may not fail; it stays as it is where the quota has no other for it. */
static void *resize(dym_object *object, void *block, size_t old_size, size_t size)
{
    dym_handle chunk;
    void *moved = NULL;
    if (dym_at(object, block, &chunk) != DYM_DONE) return NULL;
    if (dym_realloc_at(object, chunk, size, &chunk, &moved) == DYM_DONE) return moved;
    return size <= old_size ? block : NULL;
}

/* Lua's allocator (lua_Alloc). */
static void *allocate(void *object, void *block, size_t old_size, size_t size)
{
    dym_handle chunk;
    void *fresh = NULL;
    if (block != NULL) return resize(object, block, old_size, size);
    if (size > 0 && dym_malloc_at(object, size, &chunk, &fresh) != DYM_DONE) return NULL;
    return fresh;
}

/* ---- the interpreter */

static void must_lua(lua_State *lua, int status, const char *what)
{
    if (status != LUA_OK) fail(what, lua_tostring(lua, -1));
}

static int open_libraries(lua_State *lua)
{
    luaL_openlibs(lua);
    return 0;
}

static lua_State *start(dym_object *object, const char *script)
{
    lua_State *lua = lua_newstate(allocate, object);
    if (lua == NULL) fail(script, "no memory for an interpreter");
    lua_pushcfunction(lua, open_libraries);
    must_lua(lua, lua_pcall(lua, 0, 0, 0), "the libraries");
    must_lua(lua, luaL_loadfile(lua, script), script);
    must_lua(lua, lua_pcall(lua, 0, 0, 0), script);
    return lua;
}

static void call(lua_State *lua, const char *name, lua_Integer argument)
{
    lua_getglobal(lua, name);
    lua_pushinteger(lua, argument);
    must_lua(lua, lua_pcall(lua, 1, 0, 0), name);
}

/* ---- logs and rollbacks */

/* Lua writes wherever it likes, so that each chunk is touched before it runs on, and is in the next log. */
static void take_log(dym_object *object, uint64_t now)
{
    uint32_t logged;
    must(dym_log(object, DYM_INCREMENTAL, now, &logged), "log");
    must(dym_touch_all(object), "touch");
}

static uint64_t roll_back(dym_object *object, uint64_t time)
{
    uint64_t restored;
    must(dym_restore(object, time, &restored), "restore");
    must(dym_touch_all(object), "touch");
    return restored;
}

/* A number below another, where rollbacks begin and end. */
static uint64_t draw(uint64_t below)
{
    static uint64_t chance = 1;
    chance = chance * UINT64_C(6364136223846793005) + UINT64_C(1442695040888963407);
    return (chance >> 33) % below;
}

/* Runs all events, some of them many times: after a rollback it goes on behind the log that was restored. */
static void run(dym_object *object, lua_State *lua, int rollbacks)
{
    uint64_t now = 0;
    take_log(object, now);
    while (now < EVENTS) {
        call(lua, "event", (lua_Integer)++now);
        if (now % LOG_EVERY == 0) take_log(object, now);
        if (rollbacks > 0 && draw(6) == 0) {
            now = roll_back(object, now - draw(now < BACK ? now : BACK));
            rollbacks--;
        }
    }
}

int main(int count, char **words)
{
    dym_object object = {NULL};
    lua_State *lua;
    int is_straight = count == 3 && strcmp(words[2], "straight") == 0;
    if (count != 2 && !is_straight) fail("usage", "rollback SCRIPT [straight]");
    must(dym_open(&object, QUOTA, 2), "open");
    lua = start(&object, words[1]);
    run(&object, lua, is_straight ? 0 : ROLLBACKS);
    call(lua, "report", EVENTS);
    /* The interpreter lies in the object, and ends with it. */
    must(dym_close(&object), "close");
    return 0;
}
