/* lua_main.c: Lua, with what it has of libraries but files, the system's and debugging. It runs its text and ends; with
 * no text it is a server: a client sends a message whose first two words say where in the client's memory a text is,
 * and how many bytes it has. Lua runs it, and answers 0, or 1 if it had an error. What the texts set stays.
 */
#include "guest.h"
#include "lauxlib.h"
#include "lua.h"
#include "lualib.h"

#include <stdlib.h>
#include <string.h>

static const luaL_Reg libraries[] = {
    {LUA_GNAME, luaopen_base},          {LUA_COLIBNAME, luaopen_coroutine}, {LUA_TABLIBNAME, luaopen_table},
    {LUA_STRLIBNAME, luaopen_string},   {LUA_MATHLIBNAME, luaopen_math},    {LUA_UTF8LIBNAME, luaopen_utf8},
};

static void *allocate(void *data, void *place, size_t old_size, size_t new_size)
{
    (void)data;
    (void)old_size;
    if (new_size != 0)
        return realloc(place, new_size);
    free(place);
    return NULL;
}

/* Runs a text, and prints its error if there is one. */
static int run(lua_State *lua, const char *text, size_t count)
{
    int is_wrong = luaL_loadbuffer(lua, text, count, "=text") != LUA_OK || lua_pcall(lua, 0, 0, 0) != LUA_OK;

    if (is_wrong) {
        guest_prints_text(lua_tostring(lua, -1));
        guest_prints_text("\n");
        lua_pop(lua, 1);
    }
    return is_wrong;
}

#ifdef ON_HOST
static void serve(lua_State *lua)
{
    (void)lua;
}
#else
#include "mx.h"

static void serve(lua_State *lua)
{
    static char text[TEXT_ROOM];
    message m;
    int own;

    sys_whois(0, &own);
    while (receive(ANY, &m) == OK) {
        uint32_t count = m.p[1];
        int result = OK;

        if (count > sizeof text)
            result = EINVAL;
        else
            result = sys_vircopy(m.m_source, m.p[0], own, (uint32_t)text, count);
        if (result == OK)
            result = run(lua, text, count);
        guest_flushes();
        m.p[0] = result;
        send(m.m_source, &m);
    }
}
#endif

int guest_main(void)
{
    lua_State *lua = lua_newstate(allocate, NULL);
    size_t at;

    for (at = 0; at < sizeof libraries / sizeof *libraries; at++) {
        luaL_requiref(lua, libraries[at].name, libraries[at].func, 1);
        lua_pop(lua, 1);
    }
    if (text_room.text[0] == 0)
        serve(lua);
    else
        run(lua, text_room.text, strlen(text_room.text));
    lua_close(lua);
    return guest_ends();
}
