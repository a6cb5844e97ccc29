// A library for the case `loads` of agent_harm.c. With OWN it has an allocator of its own, which marks what it gives.
#include <cstdlib>
#include <memory>
#include <new>
#include <string>

#ifdef OWN
static int wrong;
struct mark { std::size_t is_own, unused; };

void *operator new(std::size_t size) {
    auto *memory = static_cast<mark *>(std::malloc(size + sizeof(mark)));
    memory->is_own = 12345;
    return memory + 1;
}
void operator delete(void *memory) noexcept {
    if (!memory) return;
    auto *begin = static_cast<mark *>(memory) - 1;
    wrong += begin->is_own != 12345;
    std::free(begin);
}
void operator delete(void *memory, std::size_t) noexcept { operator delete(memory); }
#else
static const int wrong = 0;
#endif

struct alignas(64) wide { char text[64]; };

extern "C" int run() {
    for (int round = 0; round < 100; round++) {
        auto text = std::make_unique<std::string>(100, 'x');
        auto numbers = std::make_unique<int[]>(10);
#ifndef OWN
        auto aligned = std::make_unique<wide>();
#endif
    }
    return wrong;
}
