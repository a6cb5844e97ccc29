// A program over libraries that are headers only: asio's pool of threads, the queue of moodycamel, and the asynchronous logger of spdlog. Its
// own code has an account with a lock for each customer. It prints a sum that does not depend on the schedule, and its processor time on
// standard error.
//
// usage: values THREADS ORDERS LOG    ORDERS: of each thread
#define FMT_HEADER_ONLY
#include <asio.hpp>
#include <atomic>
#include <concurrentqueue/blockingconcurrentqueue.h>
#include <cstdio>
#include <cstdlib>
#include <ctime>
#include <map>
#include <mutex>
#include <spdlog/async.h>
#include <spdlog/sinks/basic_file_sink.h>
#include <spdlog/spdlog.h>
#include <string>
#include <thread>
#include <vector>

struct Account {
    std::mutex lock;
    long balance = 0;
    std::map<std::string, int> orders;
};
struct Order { int customer, article, amount; };

enum { CUSTOMERS = 64, ARTICLES = 50 };
static Account accounts[CUSTOMERS];
static moodycamel::BlockingConcurrentQueue<Order> queue;
static std::atomic<long> done{0};

static void book(const Order &order, spdlog::logger &log) {
    Account &account = accounts[order.customer];
    std::string name = "article " + std::to_string(order.article);
    {
        std::lock_guard<std::mutex> guard(account.lock);
        account.balance += order.amount;
        account.orders[name] += order.amount;
    }
    if (order.article % 10 == 0) log.info("{}: {} of customer {}", order.amount, name, order.customer);
    done.fetch_add(1, std::memory_order_release);
}

int main(int count, char **words) {
    if (count < 4) return 2;
    int threads = std::atoi(words[1]), orders = std::atoi(words[2]);
    spdlog::init_thread_pool(8192, 1);
    auto log = spdlog::basic_logger_mt<spdlog::async_factory>("orders", words[3], true);
    asio::thread_pool pool(static_cast<std::size_t>(threads));
    std::vector<std::thread> writers;
    for (int at = 0; at < threads; at++)
        writers.emplace_back([&pool, log, at, orders] {
            unsigned state = static_cast<unsigned>(at) * 77 + 5;
            for (int round = 0; round < orders; round++) {
                state = state * 1664525 + 1013904223;
                queue.enqueue({static_cast<int>(state >> 8 & 63), static_cast<int>(state >> 16 & 255) % ARTICLES,
                               static_cast<int>(state >> 24) % 20});
                asio::post(pool, [log] {
                    Order order;
                    queue.wait_dequeue(order);
                    book(order, *log);
                });
            }
        });
    for (auto &writer : writers) writer.join();
    pool.join();
    spdlog::shutdown();
    long sum = 0;
    for (auto &account : accounts) sum += account.balance;
    std::printf("%ld orders, sum %ld\n", done.load(std::memory_order_acquire), sum);
    std::fprintf(stderr, "seconds %.3f\n", static_cast<double>(std::clock()) / CLOCKS_PER_SEC);
}
