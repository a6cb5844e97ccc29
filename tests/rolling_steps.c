/* A program for tests/rolling. It makes these steps, one for each line of standard input:
 *
 *     sections N    the first thread acquires lock 1, posts a semaphore and releases the lock, N times: four events each time, since a
 *                   section with a post repeats no other one
 *     pairs N       the first thread acquires lock 1, then lock 2, and releases both, N times: four events, if the others are left out
 *     single        the first thread acquires and releases lock 2
 *     hold, drop    the first thread acquires locks 5 and 3, and keeps them; it acquires and releases lock 4, and releases locks 3 and 5
 *     other         the second thread acquires lock 4, then lock 3, and releases both
 */
#include <pthread.h>
#include <semaphore.h>
#include <stdio.h>
#include <string.h>
#include <unistd.h>

static pthread_mutex_t locks[6] = {PTHREAD_MUTEX_INITIALIZER, PTHREAD_MUTEX_INITIALIZER, PTHREAD_MUTEX_INITIALIZER, PTHREAD_MUTEX_INITIALIZER,
                                   PTHREAD_MUTEX_INITIALIZER, PTHREAD_MUTEX_INITIALIZER};
static sem_t posted;
static int go[2], done[2]; /* pipes: no event of the program orders the two threads */

static void acquire(int lock) { pthread_mutex_lock(&locks[lock]); }
static void release(int lock) { pthread_mutex_unlock(&locks[lock]); }

static void section(int outer, int inner) {
    acquire(outer), acquire(inner), release(inner), release(outer);
}

static void section_with_post(void) {
    acquire(1), sem_post(&posted), release(1);
}

static void *other(void *unused) {
    char byte = 0;
    if (write(done[1], &byte, 1) != 1) return NULL; /* it has started: its records are there */
    while (read(go[0], &byte, 1) == 1) {
        section(4, 3);
        if (write(done[1], "", 1) != 1) break;
    }
    return unused;
}

static void run_other(void) {
    char byte;
    if (write(go[1], "", 1) == 1 && read(done[0], &byte, 1) == 1) return;
    puts("the other thread has ended");
}

int main(void) {
    pthread_t thread;
    char line[40], byte;
    int count;
    sem_init(&posted, 0, 0);
    if (pipe(go) || pipe(done) || pthread_create(&thread, NULL, other, NULL) || read(done[0], &byte, 1) != 1) return 1;
    while (fgets(line, sizeof line, stdin)) {
        if (sscanf(line, "sections %d", &count) == 1) while (count--) section_with_post();
        else if (sscanf(line, "pairs %d", &count) == 1) while (count--) section(1, 2);
        else if (!strcmp(line, "hold\n")) acquire(5), acquire(3);
        else if (!strcmp(line, "drop\n")) acquire(4), release(4), release(3), release(5);
        else if (!strcmp(line, "single\n")) acquire(2), release(2);
        else if (!strcmp(line, "other\n")) run_other();
    }
    close(go[1]);
    pthread_join(thread, NULL);
    puts("done");
    return 7;
}
