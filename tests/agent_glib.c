/* Cases of tests/agents with GLib's mutexes and conditions. It needs the library, and no header of it.
 *
 *     agent_glib NAME
 */
#include <pthread.h>
#include <sched.h>
#include <stdint.h>
#include <string.h>

void g_mutex_lock(void *lock);
int g_mutex_trylock(void *lock);
void g_mutex_unlock(void *lock);
void g_cond_wait(void *condition, void *lock);
void g_cond_signal(void *condition);

static uint64_t a, b, c, condition[2];
static int step;

static void until(int number) { while (__atomic_load_n(&step, __ATOMIC_ACQUIRE) < number) sched_yield(); }
static void next(void) { __atomic_fetch_add(&step, 1, __ATOMIC_RELEASE); }

static void both(void *first, void *second) {
    g_mutex_lock(first);
    g_mutex_lock(second);
    g_mutex_unlock(second);
    g_mutex_unlock(first);
}

/* blocking: 0f1 0f2 1a1 1a2 1r2 1r1 2a2 2a1 2r1 2r2 0j2 0j1 */
static void *a_then_b(void *unused) { until(1), both(&a, &b), next(); return unused; }
static void *b_then_a(void *unused) { until(2), both(&b, &a); return unused; }

/* tried: the second thread does not wait for its second lock */
static void *tries(void *unused) {
    until(2);
    g_mutex_lock(&b);
    if (g_mutex_trylock(&a)) g_mutex_unlock(&a);
    g_mutex_unlock(&b);
    return unused;
}

/* woken: the second thread goes on when the first one has signalled */
static void *signals(void *unused) {
    until(2);
    both(&a, &b);
    g_mutex_lock(&c); /* the other one has released it: it waits */
    g_cond_signal(condition);
    g_mutex_unlock(&c);
    return unused;
}

static void *waits(void *unused) {
    until(1);
    g_mutex_lock(&c);
    next();
    g_cond_wait(condition, &c);
    g_mutex_unlock(&c);
    both(&b, &a);
    return unused;
}

int main(int count, char **words) {
    const char *name = count > 1 ? words[1] : "";
    int is_woken = !strcmp(name, "woken");
    pthread_t two[2];
    pthread_create(&two[0], NULL, is_woken ? signals : a_then_b, NULL);
    pthread_create(&two[1], NULL, is_woken ? waits : !strcmp(name, "tried") ? tries : b_then_a, NULL);
    next();
    pthread_join(two[1], NULL);
    return pthread_join(two[0], NULL);
}
