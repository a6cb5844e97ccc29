/* Two threads copy two databases to each other, by the backups of SQLite: each step locks the source and then the destination. With ORDERED in
 * the environment the second copy begins after the first one, so no run deadlocks that is recorded. */
#include <pthread.h>
#include <sched.h>
#include <sqlite3.h>
#include <stdatomic.h>
#include <stdio.h>
#include <stdlib.h>

static sqlite3 *first, *second;
static atomic_int is_copied;

static void copy(sqlite3 *to, sqlite3 *from) {
    sqlite3_backup *backup = sqlite3_backup_init(to, "main", from, "main");
    while (backup && sqlite3_backup_step(backup, 5) == SQLITE_OK) continue;
    sqlite3_backup_finish(backup);
}

static void *copies_there(void *raw) {
    copy(second, first);
    atomic_store(&is_copied, 1);
    return raw;
}

static void *copies_back(void *raw) {
    while (getenv("ORDERED") && !atomic_load(&is_copied)) sched_yield();
    copy(first, second);
    return raw;
}

int main(void) {
    pthread_t there, back;
    if (sqlite3_open(":memory:", &first) || sqlite3_open(":memory:", &second)) return 1;
    if (sqlite3_exec(first, "create table t(x); with recursive n(i) as (select 1 union all select i + 1 from n where i < 500) "
                            "insert into t select hex(randomblob(20)) from n", NULL, NULL, NULL)) return 1;
    if (pthread_create(&there, NULL, copies_there, NULL) || pthread_create(&back, NULL, copies_back, NULL)) return 1;
    pthread_join(there, NULL), pthread_join(back, NULL);
    sqlite3_close(first), sqlite3_close(second);
    puts("copied");
    return 0;
}
