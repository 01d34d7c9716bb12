/* sqlite_main.c: SQLite with a database in memory. It makes the statements of its text, and prints each row with bars
 * between its values, as SQLite's own shell does.
 */
#include "guest.h"
#include "sqlite3.h"

static int prints_row(void *data, int count, char **values, char **names)
{
    int at;

    (void)data;
    (void)names;
    for (at = 0; at < count; at++) {
        if (at > 0)
            guest_prints_text("|");
        if (values[at] != NULL)
            guest_prints_text(values[at]);
    }
    guest_prints_text("\n");
    return 0;
}

/* SQLite asks for a system even if no file is opened: this one has no files, and no time. */
static int opens(sqlite3_vfs *system, const char *name, sqlite3_file *file, int flags, int *done)
{
    (void)system;
    (void)name;
    (void)flags;
    (void)done;
    file->pMethods = NULL;
    return SQLITE_CANTOPEN;
}

static int accesses(sqlite3_vfs *system, const char *name, int flags, int *result)
{
    (void)system;
    (void)name;
    (void)flags;
    *result = 0;
    return SQLITE_OK;
}

static int names_fully(sqlite3_vfs *system, const char *name, int room, char *full)
{
    (void)system;
    sqlite3_snprintf(room, full, "%s", name);
    return SQLITE_OK;
}

static int draws(sqlite3_vfs *system, int count, char *bytes)
{
    int at;

    (void)system;
    for (at = 0; at < count; at++)
        bytes[at] = (char)at;
    return count;
}

static int reads_time(sqlite3_vfs *system, double *days)
{
    (void)system;
    *days = 2440587.5;
    return SQLITE_OK;
}

static sqlite3_vfs no_files = {
    .iVersion = 1,
    .szOsFile = sizeof(sqlite3_file),
    .mxPathname = 100,
    .zName = "none",
    .xOpen = opens,
    .xAccess = accesses,
    .xFullPathname = names_fully,
    .xRandomness = draws,
    .xCurrentTime = reads_time,
};

int sqlite3_os_init(void)
{
    return sqlite3_vfs_register(&no_files, 1);
}

int sqlite3_os_end(void)
{
    return SQLITE_OK;
}

int guest_main(void)
{
    sqlite3 *database = NULL;
    char *error = NULL;

    if (sqlite3_open(":memory:", &database) != SQLITE_OK)
        guest_prints_text("no database\n");
    else if (sqlite3_exec(database, text_room.text, prints_row, NULL, &error) != SQLITE_OK)
        guest_prints_text(error);
    sqlite3_close(database);
    return guest_ends();
}
