// Locks of the C++ library, whose calls are within headers: tests/agents builds this program with -O2 and without frame pointers, and finds
// each line with a comment in the report. `transfer` and `audit`, and `forward` and `backward`, acquire two locks in opposite orders, one
// after another.
#include <atomic>
#include <mutex>
#include <shared_mutex>
#include <thread>
#include <vector>

static std::mutex accounts, names;
static std::shared_mutex table;
static std::atomic<int> step;
static int value;

static void until(int number) { while (step < number) std::this_thread::yield(); }

template <class First, class Second> __attribute__((noinline)) static void transfer(First &first, Second &second) {
    std::scoped_lock both(first, second); // holds accounts, does not wait for names
    value++;
}

__attribute__((noinline)) static void audit() {
    std::unique_lock<std::mutex> first(names); // holds names
    std::lock_guard<std::mutex> second(accounts); // waits for accounts
    value++;
}

__attribute__((noinline)) static void forward() {
    std::lock_guard<std::mutex> first(accounts); // holds accounts
    std::unique_lock<std::shared_mutex> second(table); // waits for table
    value++;
}

__attribute__((noinline)) static void backward() {
    std::shared_lock<std::shared_mutex> first(table); // holds table
    std::scoped_lock second(accounts); // waits for accounts, too
    value++;
}

int main() {
    std::vector<std::jthread> others;
    std::thread first([] { forward(), step++; }); // starts forward
    std::jthread second([] { until(1), backward(), step++; }); // starts backward
    others.emplace_back([] { until(2), transfer(accounts, names), step++; });
    others.emplace_back([] { until(3), audit(), step++; });
    first.join();
    return 0;
}
