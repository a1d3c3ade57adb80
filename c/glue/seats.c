/* Who calls: each thread has a seat of the node. A worker has its own; main and eight further threads get one at their first
 * call, and give it back when they end. */
#include "glue.h"

static _Thread_local struct {
    uint64_t epoch; /* of the node in which it is */
    uint32_t seat;
    bool is_worker;
    bool asked_again; /* to leave it, since it held something */
} mine;

_Thread_local mtapi_task_context_t *glue_context;

static pthread_key_t at_the_end;
static pthread_once_t once = PTHREAD_ONCE_INIT;
static bool has_key;

/* A thread that holds a lock or is attached to a segment keeps its seat: the next one would have what it holds. Another destructor
 * of the thread may still call: it finds the seat gone, and gets another; or it gives back what is held, so this one runs once
 * more. */
static void leave_seat(void *unused)
{
    (void)unused;
    glue_lock();
    if (glue.state != NO_NODE && mine.epoch == glue.epoch && !mine.is_worker) {
        struct caller *caller = &glue.caller[mine.seat - glue.workers];
        if (caller->held == 0) {
            caller->taken = false;
            mine.epoch = 0; /* of no node */
        } else if (!mine.asked_again) {
            mine.asked_again = true;
            pthread_setspecific(at_the_end, &mine);
        }
    }
    glue_unlock();
}

static void make_key(void)
{
    has_key = pthread_key_create(&at_the_end, leave_seat) == 0;
}

uint32_t glue_prepare_seats(void)
{
    pthread_once(&once, make_key);
    return has_key ? 0 : MTAPI_ERR_NODE_INITFAILED;
}

static uint32_t take_seat(uint32_t place)
{
    if (pthread_setspecific(at_the_end, &mine) != 0) return MTAPI_EXT_ERR_MEMORY;
    glue.caller[place].taken = true;
    mine.epoch = glue.epoch;
    mine.seat = glue.workers + place;
    mine.is_worker = false;
    mine.asked_again = false;
    return 0;
}

uint32_t glue_sit_as_main(void)
{
    return take_seat(0);
}

void glue_sit_as_worker(uint32_t number)
{
    mine.epoch = glue.epoch;
    mine.seat = number;
    mine.is_worker = true;
}

bool glue_is_worker(void)
{
    return glue.state != NO_NODE && mine.epoch == glue.epoch && mine.is_worker;
}

/* A seat for a thread that has none yet: it enters the node. */
static uint32_t find_seat(void)
{
    for (uint32_t place = 0; place < CALLERS; place++) {
        if (glue.caller[place].taken) continue;
        uint32_t code = mtapi_c_enter(&glue.node, glue.workers + place);
        return code ? code : take_seat(place);
    }
    return MTAPI_EXT_ERR_CALLER_LIMIT;
}

uint32_t glue_begin(uint32_t *who)
{
    uint32_t code = 0;
    *who = 0;
    glue_lock();
    if (glue.state != STANDING && glue.state != ENDING) return MTAPI_ERR_NODE_NOTINIT;
    if (mine.epoch != glue.epoch) code = find_seat();
    *who = mine.seat;
    return code;
}

void glue_end(uint32_t code, mtapi_status_t *status)
{
    glue_unlock();
    glue_say(status, code);
}
