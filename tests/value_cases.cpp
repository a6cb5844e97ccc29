// The same as value_cases.c, with what the library of C++20 makes of atomics, and initialisations that the compiler makes.
//
// usage: value_cases CASE [real]
#include <condition_variable>
#include <cstring>
#include <future>
#include <memory>
#include <mutex>
#include <poll.h>
#include <semaphore>
#include <thread>
#include <unistd.h>

static std::mutex one, other;
static bool is_real;

static int ended[2];
static void nap() {
    pollfd end{ended[0], POLLIN, 0};
    poll(&end, 1, -1);
}
static void nest(std::mutex &outer, std::mutex &inner) {
    std::lock_guard<std::mutex> first(outer);
    std::lock_guard<std::mutex> second(inner);
}
template <class Step> static void work_then(Step step) {
    if (!is_real) nest(one, other);
    step();
    if (is_real) nest(one, other);
}

// The last owner of an object destroys it.
struct Owned { ~Owned() { nest(other, one); } };
static std::shared_ptr<Owned> mine, yours;
static void last_reference_first() { work_then([] { mine.reset(); }); }
static void last_reference_second() { nap(); yours.reset(); }

// A static variable of a function: the second thread finds it initialised.
struct Thing { int value = 1; Thing() { if (!is_real) nest(one, other); } };
static Thing &get() { static Thing it; return it; }
static void static_variable_first() { get(); if (is_real) nest(one, other); }
static void static_variable_second() { nap(); if (get().value) nest(other, one); }

// A semaphore that has a token already.
static std::binary_semaphore given{0};
static void semaphore_first() { work_then([] { given.release(); }); }
static void semaphore_second() { nap(); given.acquire(); nest(other, one); }

// A promise that is kept already.
static std::promise<int> promised;
static std::future<int> result = promised.get_future();
static void promise_first() { work_then([] { promised.set_value(3); }); }
static void promise_second() { nap(); if (result.get() == 3) nest(other, one); }

#define CASES(X) X(last_reference) X(static_variable) X(semaphore) X(promise)
#define LISTED(name) {#name, name##_first, name##_second},
static const struct { const char *name; void (*first)(), (*second)(); } cases[] = {CASES(LISTED)};

int main(int words, char **word) {
    if (words < 2 || pipe(ended)) return 2;
    is_real = words > 2;
    mine = yours = std::make_shared<Owned>();
    for (auto &it : cases)
        if (!strcmp(it.name, word[1])) {
            std::thread first([&it] { it.first(); close(ended[1]); }), second(it.second);
            first.join(), second.join();
            return 0;
        }
    return 2;
}
