/* libevent's min heap of timeouts, the header of its source package. Each payload has an event of its own. */

#include <stdint.h>
#include <stdlib.h>

#include "minheap-internal.h"

struct timers {
    min_heap_t heap;
    struct event *events;
    uint32_t now;
};

static struct timeval time_of(uint32_t tick)
{
    return (struct timeval){.tv_sec = tick / 1000, .tv_usec = tick % 1000 * 1000};
}

struct timers *libevent_new(uint32_t count)
{
    struct timers *timers = calloc(1, sizeof *timers);
    min_heap_ctor_(&timers->heap);
    timers->events = calloc(count, sizeof *timers->events);
    for (uint32_t payload = 0; payload < count; payload++)
        min_heap_elem_init_(&timers->events[payload]);
    return timers;
}

void libevent_free(struct timers *timers)
{
    min_heap_dtor_(&timers->heap);
    free(timers->events);
    free(timers);
}

void libevent_start(struct timers *timers, uint32_t deadline, uint32_t payload)
{
    struct event *event = &timers->events[payload];
    event->ev_timeout = time_of(deadline);
    min_heap_push_(&timers->heap, event);
}

void libevent_stop(struct timers *timers, uint32_t payload)
{
    min_heap_erase_(&timers->heap, &timers->events[payload]);
}

void libevent_advance(struct timers *timers)
{
    timers->now++;
}

uint32_t libevent_take(struct timers *timers)
{
    struct event *first = min_heap_top_(&timers->heap);
    if (!first)
        return UINT32_MAX;
    struct timeval now = time_of(timers->now);
    if (evutil_timercmp(&first->ev_timeout, &now, >))
        return UINT32_MAX;
    min_heap_pop_(&timers->heap);
    return first - timers->events;
}
