/* Cases of the agent for pthreads in C++. Steps, which the agent does not see, fix the order of the two threads.
 *
 *     agent_cases_cpp NAME
 */
#include <atomic>
#include <cstdio>
#include <cstdlib>
#include <cstring>
#include <memory>
#include <mutex>
#include <sys/syscall.h>
#include <thread>
#include <unistd.h>
#if __cplusplus >= 202002L
#include <barrier>
#include <latch>
#include <semaphore>
#endif

static std::mutex a, b;
static std::once_flag flag;
static std::atomic<int> step;

static void until(int number) { while (step < number) std::this_thread::yield(); }

static void run_two(void (*first)(), void (*second)()) {
    std::thread one([=] { first(), step++; }), two([=] { until(1), second(); });
    two.join();
    one.join();
}

static void both(std::mutex &first, std::mutex &second) {
    std::lock_guard<std::mutex> outer(first);
    std::unique_lock<std::mutex> inner(second);
}

static void a_then_b() { both(a, b); }
static void b_then_a() { both(b, a); }

/* guards: one confirmed cycle, at lines of this file */
static void guards() { run_two(a_then_b, b_then_a); }

/* scoped: std::scoped_lock waits only for its first lock, and tries the others */
static void scoped() {
    run_two([] { std::scoped_lock both(a, b); }, [] { std::scoped_lock both(b, a); });
}

/* reused: a mutex in the memory of another one */
static void reused() {
    auto mutex = std::make_unique<std::mutex>();
    std::mutex *before = mutex.get();
    std::thread([&] { both(a, *mutex), step++, until(2); }).detach();
    until(1);
    mutex.reset();
    mutex = std::make_unique<std::mutex>();
    if (mutex.get() != before) std::fprintf(stderr, "the allocator has not reused the memory\n");
    std::thread two([&] { both(*mutex, a); });
    two.join();
    step++;
}

/* call_once: what comes after an initialisation is not before it */
static void call_once() {
    run_two([] { std::call_once(flag, a_then_b); }, [] { std::call_once(flag, a_then_b), b_then_a(); });
}

/* Waits until the second thread waits in a call of futex. */
static std::atomic<long> second_thread;

static void until_it_waits() {
    char name[64], call[8];
    while (!second_thread) std::this_thread::yield();
    std::snprintf(name, sizeof name, "/proc/self/task/%ld/syscall", second_thread.load());
    do {
        std::this_thread::yield();
        std::FILE *file = std::fopen(name, "r");
        if (!file || !std::fgets(call, sizeof call, file)) call[0] = 0;
        if (file) std::fclose(file);
    } while (std::atol(call) != SYS_futex);
}

/* static_local: what comes after the initialisation of a static variable is not before it */
static int initialise() {
    a_then_b();
    step++;
    until_it_waits();
    return 1;
}

static void use() { static int once = initialise(); (void)once; }

static void static_local() {
    std::thread one(use), two([] { until(1), second_thread = syscall(SYS_gettid), use(), b_then_a(); });
    two.join();
    one.join();
}

#if __cplusplus >= 202002L
static std::counting_semaphore<2> semaphore{0};
static std::latch latch{1};
static std::barrier<> barrier{2};

/* released, counted_down, arrived: the second thread goes on after the first one, for which it has waited */
template <typename First, typename Second> static void hands_over(First first, Second second) {
    std::thread one([=] { a_then_b(), until_it_waits(), first(); }), two([=] { second_thread = syscall(SYS_gettid), second(), b_then_a(); });
    two.join();
    one.join();
}

static void released() { hands_over([] { semaphore.release(); }, [] { semaphore.acquire(); }); }
static void counted_down() { hands_over([] { latch.count_down(); }, [] { latch.wait(); }); }
static void arrived() { hands_over([] { barrier.arrive_and_wait(); }, [] { barrier.arrive_and_wait(); }); }
#endif

int main(int count, char **words) {
    const char *name = count > 1 ? words[1] : "";
    if (!std::strcmp(name, "guards")) guards();
    else if (!std::strcmp(name, "scoped")) scoped();
    else if (!std::strcmp(name, "reused")) reused();
    else if (!std::strcmp(name, "call_once")) call_once();
    else if (!std::strcmp(name, "static_local")) static_local();
#if __cplusplus >= 202002L
    else if (!std::strcmp(name, "released")) released();
    else if (!std::strcmp(name, "counted_down")) counted_down();
    else if (!std::strcmp(name, "arrived")) arrived();
#endif
    else return 2;
    return 0;
}
