/* Leaves out the sections of an event file that repeat an earlier one, as the collector does while events come. Each line of standard input has
 * one event, as in 1a10; standard output has those that are kept. With an argument, all that waits is kept after that many events. */
#include "collector.h"

uint32_t events;

void *allocate(size_t bytes) { return calloc(1, bytes); }
void *grow(void *array, size_t count, size_t *room, size_t item) { return (void)count, (void)room, (void)item, array; }
uint64_t now(void) { return 0; }
void forget_events(uint32_t count) { events -= count; }
void write_now(uint32_t thread, char letter, uint32_t object, uint32_t site) { (void)site, printf("%u%c%u\n", thread, letter, object); }

int main(int count, char **words) {
    uint32_t thread, object, all = 0, most = count > 1 ? (uint32_t)atoi(words[1]) : 0;
    char letter;
    begin_repeats();
    while (scanf("%u%c%u", &thread, &letter, &object) == 3) {
        add_event(thread, letter, object, 0), events++;
        if (most && ++all % most == 0) keep_pending();
    }
    keep_pending();
    fprintf(stderr, "%u\n", events);
    return 0;
}
