/* libuv's timers: uv_timer_start, uv_timer_stop, and the step of its loop that runs timers. The loop's clock is set by hand.
   Each payload has a timer of its own. */

#include <stdint.h>
#include <stdlib.h>
#include <uv.h>

/* In libuv_a.a, and in no header. */
void uv__run_timers(uv_loop_t *loop);

struct timers {
    uv_loop_t loop;
    uint32_t count;
    uv_timer_t *timers;
    /* The payloads that fired in this tick, and how many of them were taken. */
    uint32_t *fired;
    uint32_t fired_count;
    uint32_t taken;
};

static void fire(uv_timer_t *timer)
{
    struct timers *timers = timer->loop->data;
    timers->fired[timers->fired_count++] = timer - timers->timers;
}

struct timers *libuv_new(uint32_t count)
{
    struct timers *timers = calloc(1, sizeof *timers);
    uv_loop_init(&timers->loop);
    timers->loop.data = timers;
    timers->loop.time = 0;
    timers->count = count;
    timers->timers = calloc(count, sizeof *timers->timers);
    timers->fired = calloc(count, sizeof *timers->fired);
    for (uint32_t payload = 0; payload < count; payload++)
        uv_timer_init(&timers->loop, &timers->timers[payload]);
    return timers;
}

void libuv_free(struct timers *timers)
{
    for (uint32_t payload = 0; payload < timers->count; payload++)
        uv_close((uv_handle_t *)&timers->timers[payload], NULL);
    uv_run(&timers->loop, UV_RUN_DEFAULT);
    uv_loop_close(&timers->loop);
    free(timers->timers);
    free(timers->fired);
    free(timers);
}

void libuv_start(struct timers *timers, uint32_t deadline, uint32_t payload)
{
    uv_timer_start(&timers->timers[payload], fire, deadline - timers->loop.time, 0);
}

void libuv_stop(struct timers *timers, uint32_t payload)
{
    uv_timer_stop(&timers->timers[payload]);
}

void libuv_advance(struct timers *timers)
{
    timers->loop.time++;
    timers->fired_count = 0;
    timers->taken = 0;
    uv__run_timers(&timers->loop);
}

uint32_t libuv_take(struct timers *timers)
{
    return timers->taken < timers->fired_count ? timers->fired[timers->taken++] : UINT32_MAX;
}
