/* libev's timers: ev_timer_start, ev_timer_stop, and the steps of its loop that find expired timers and call them back, from the
   source package, since the loop's clock is set by hand. Each payload has a timer of its own. */

#define EV_STANDALONE 1
#define EV_USE_SELECT 0
#define EV_USE_EPOLL 1

#include "ev.c"

#include <stdint.h>
#include <stdlib.h>

struct timers {
    struct ev_loop *loop;
    uint32_t now;
    ev_timer *timers;
    /* The payloads that fired in this tick, and how many of them were taken. */
    uint32_t *fired;
    uint32_t fired_count;
    uint32_t taken;
};

/* A timer fires once the loop's time is past its own, so the loop's stands half a tick after now. */
static ev_tstamp half_past(uint32_t tick)
{
    return tick + 0.5;
}

static void fire(struct ev_loop *loop, ev_timer *timer, int events)
{
    struct timers *timers = timer->data;
    timers->fired[timers->fired_count++] = timer - timers->timers;
}

struct timers *libev_new(uint32_t count)
{
    struct timers *timers = calloc(1, sizeof *timers);
    timers->loop = ev_loop_new(EVFLAG_AUTO);
    timers->loop->mn_now = half_past(0);
    timers->timers = calloc(count, sizeof *timers->timers);
    timers->fired = calloc(count, sizeof *timers->fired);
    for (uint32_t payload = 0; payload < count; payload++) {
        ev_init(&timers->timers[payload], fire);
        timers->timers[payload].data = timers;
    }
    return timers;
}

void libev_free(struct timers *timers)
{
    ev_loop_destroy(timers->loop);
    free(timers->timers);
    free(timers->fired);
    free(timers);
}

void libev_start(struct timers *timers, uint32_t deadline, uint32_t payload)
{
    ev_timer *timer = &timers->timers[payload];
    ev_timer_set(timer, deadline - timers->loop->mn_now, 0.);
    ev_timer_start(timers->loop, timer);
}

void libev_stop(struct timers *timers, uint32_t payload)
{
    ev_timer_stop(timers->loop, &timers->timers[payload]);
}

void libev_advance(struct timers *timers)
{
    timers->now++;
    timers->loop->mn_now = half_past(timers->now);
    timers->fired_count = 0;
    timers->taken = 0;
    timers_reify(timers->loop);
    ev_invoke_pending(timers->loop);
}

uint32_t libev_take(struct timers *timers)
{
    return timers->taken < timers->fired_count ? timers->fired[timers->taken++] : UINT32_MAX;
}
