/* Fills a table of sqlite3 in memory, asks two questions, and answers a checksum of what was said. There are no files. */
#include <string.h>
#include "sqlite3.h"

static const char fill[] =
    "create table t(a integer primary key, b text, c real); create index i on t(b);"
    "with recursive n(x) as (select 1 union all select x + 1 from n where x < 2000)"
    " insert into t select x, printf('%d-%d', x * 7919 % 1000, x), x * 1.5 from n;";
static const char ask[] =
    "select b, count(*), sum(c) from t where b > '5' group by substr(b, 1, 2) order by 2 desc, 1;"
    "select upper(b) || a from t where a in (select max(a) from t group by a % 17)";

static int full_name(sqlite3_vfs *system, const char *name, int size, char *out)
{
    strncpy(out, name, size);
    return SQLITE_OK;
}

static int some_bytes(sqlite3_vfs *system, int count, char *out)
{
    memset(out, 7, count);
    return count;
}

static int some_time(sqlite3_vfs *system, double *time)
{
    *time = 2459000.5;
    return SQLITE_OK;
}

static int no_file(sqlite3_vfs *system, const char *name, sqlite3_file *file, int flags, int *given)
{
    return SQLITE_CANTOPEN;
}

static sqlite3_vfs without_files = {
    .iVersion = 1, .szOsFile = 64, .mxPathname = 100, .zName = "none", .xOpen = no_file,
    .xFullPathname = full_name, .xRandomness = some_bytes, .xCurrentTime = some_time,
};

int sqlite3_os_init(void)
{
    return sqlite3_vfs_register(&without_files, 1);
}

int sqlite3_os_end(void)
{
    return SQLITE_OK;
}

static int add(void *sum, int count, char **values, char **names)
{
    unsigned *total = sum;

    *total = *total * 31 + (values[0] ? strlen(values[0]) + values[0][0] : 0);
    return 0;
}

__attribute__((export_name("run"))) unsigned run(void)
{
    sqlite3 *base;
    unsigned total = 0;

    if (sqlite3_open(":memory:", &base) != SQLITE_OK)
        return 1;
    if (sqlite3_exec(base, fill, 0, 0, 0) != SQLITE_OK)
        return 2;
    if (sqlite3_exec(base, ask, add, &total, 0) != SQLITE_OK)
        return 3;
    sqlite3_close(base);
    return total;
}
