/*
 * Threads, and how they wait for each other. SPDX: MIT OR Apache-2.0
 *
 * A thread of the program is a thread of the system, with a machine and registers of the heap. What it is, by the program, is a record that
 * has its number; the same goes for mutexes and condition variables, so what is known of them here is found by numbers. A mutex is known
 * only while it is locked.
 *
 * One lock guards all that stands here. It is held for a few steps, never while a thread evaluates, and nobody calls the heap meanwhile: a
 * thread that is about to wait rests first. Who ends a wait takes the thread out of the list of those that wait, so that no wait ends
 * twice.
 *
 * A thread that waits without a last moment can be woken by another thread alone. So where the last one that doesn't wait so is about to,
 * or ends, all wait for each other. That is told, and where: at the call by which the first thread waits, if it does.
 *
 * A thread that another one terminates ends by itself: where it waits, or is about to, or where it asks whether a pause is wanted.
 */
#define _POSIX_C_SOURCE 200809L
#include "threads.h"
#include "table.h"
#include <errno.h>
#include <math.h>
#include <pthread.h>
#include <sched.h>
#include <stdlib.h>
#include <string.h>
#include <time.h>

/* What a function does not ask for. */
#define UNUSED(operand) (void)(operand)

enum { PLACES_MOST = 1024, BUCKETS = 1024, THREAD_ENDS = 256, THREAD_TERMINATED, FIRST_THREAD = 1 };

typedef enum state { STATE_NEW, STATE_LIVE, STATE_ENDED, STATE_TERMINATED } State;
typedef enum wait { WAIT_END, WAIT_MUTEX, WAIT_NAME, WAIT_CONDITION, WAIT_MOMENT } Wait;

typedef struct waiter {
    int64_t thread; /* its number */
    pthread_cond_t woken;
    bool waits;    /* it stands in the list of those that wait .. */
    bool is_timed; /* .. until some moment at the latest .. */
    Wait wait;     /* .. for this .. */
    int64_t of;    /* .. of what has this number */
    Position at;   /* the call that waits */
    struct waiter *before, *behind;
} Waiter;

/* A mutex that is locked, or whose owner has ended. Where another thread than the one that locks it becomes its owner, the mutex's record
 * says which right after it is locked; until then the owner's number is below 0, and nobody unlocks it or asks whose it is. */
typedef struct mutex {
    struct mutex *next;
    int64_t number, owner; /* 0: no thread */
    bool is_abandoned;
} Mutex;

static pthread_mutex_t lock = PTHREAD_MUTEX_INITIALIZER;
static void (*end_program)(int status);
static unsigned most, live;   /* threads beside the first: that may be, and that are */
static unsigned running;      /* threads that don't wait, or wait until a moment */
static unsigned char *states; /* of threads, by their numbers */
static int64_t thread_count, thread_room, number_count;
static int64_t places[PLACES_MOST];     /* the numbers of threads by where they stand in the directory; 0: none */
static bool is_terminated[PLACES_MOST]; /* whether the thread that stands there is to end */
static Waiter *first_waiter, *last_waiter;
static Mutex *mutexes[BUCKETS], *free_mutexes;

/* Moments */

static double now(void) {
    struct timespec time;
    clock_gettime(CLOCK_REALTIME, &time);
    return (double)time.tv_sec + (double)time.tv_nsec / 1e9;
}

/* A moment that a register has; whether it has one. */
static bool has_moment(const Machine *machine, unsigned operand, struct timespec *moment) {
    const double latest = 9e9; /* some centuries */
    const Word word = machine->word[operand];
    double seconds;
    if (word == FALSE) return false;
    if (is_integer(word)) {
        seconds = (double)number(word);
    } else if (word == REAL) {
        const Word bits = memory_get(operand, HEAD_WORDS);
        memcpy(&seconds, &bits, sizeof seconds);
    } else {
        machine_fault(machine, "not a number of seconds");
    }
    if (!(seconds > 0)) seconds = 0;
    if (seconds > latest) seconds = latest;
    moment->tv_sec = (time_t)floor(seconds);
    moment->tv_nsec = (long)((seconds - floor(seconds)) * 1e9);
    return true;
}

/* Waiting; the lock is held */

static void list_waiter(Waiter *waiter) {
    waiter->before = last_waiter;
    waiter->behind = NULL;
    *(last_waiter ? &last_waiter->behind : &first_waiter) = waiter;
    last_waiter = waiter;
    waiter->waits = true;
    if (!waiter->is_timed) running--;
}

static void unlist_waiter(Waiter *waiter) {
    *(waiter->before ? &waiter->before->behind : &first_waiter) = waiter->behind;
    *(waiter->behind ? &waiter->behind->before : &last_waiter) = waiter->before;
    waiter->waits = false;
    if (!waiter->is_timed) running++;
}

/* Those that wait for this go on: the first, or all. */
static void wake(Wait wait, int64_t of, bool all) {
    Waiter *next;
    for (Waiter *waiter = first_waiter; waiter; waiter = next) {
        next = waiter->behind;
        if (waiter->wait != wait || waiter->of != of) continue;
        unlist_waiter(waiter);
        pthread_cond_signal(&waiter->woken);
        if (!all) return;
    }
}

static const char all_wait[] = "all threads wait for each other";

/* No thread is left to wake another, and this isn't the first thread: it ends the program. */
__attribute__((noreturn)) static void tell_all_wait(void) {
    const Waiter *told = first_waiter;
    for (const Waiter *waiter = first_waiter; waiter; waiter = waiter->behind) {
        if (waiter->thread == FIRST_THREAD) told = waiter;
    }
    fault_begin(told->at);
    fprintf(stderr, "%s\n", all_wait);
    end_program(1);
    abort();
}

/* Waits for something, until a moment if there is one; whether it came, and the thread isn't to end. It rests, and the lock is held but
 * while it waits. */
static bool wait_for(Machine *machine, Wait wait, int64_t of, const struct timespec *moment) {
    Waiter *const waiter = machine->waiter;
    if (is_terminated[machine->place]) return false;
    waiter->wait = wait;
    waiter->of = of;
    waiter->is_timed = moment != NULL;
    list_waiter(waiter);
    if (!running) {
        if (waiter->thread != FIRST_THREAD) tell_all_wait();
        unlist_waiter(waiter);
        pthread_mutex_unlock(&lock);
        memory_wake();
        fault(waiter->at, "%s", all_wait);
    }
    while (waiter->waits) {
        const int code = moment ? pthread_cond_timedwait(&waiter->woken, &lock, moment) : pthread_cond_wait(&waiter->woken, &lock);
        if (code == ETIMEDOUT && waiter->waits) {
            unlist_waiter(waiter);
            return false;
        }
    }
    return !is_terminated[machine->place];
}

/* The thread rests, and the lock is held from here .. */
static void begin_rest(Machine *machine) {
    machine->waiter->at = machine_position(machine);
    machine_let_go(machine); /* it may wait long */
    memory_rest();
    pthread_mutex_lock(&lock);
}

/* .. to here. */
static void end_rest(Machine *machine) {
    pthread_mutex_unlock(&lock);
    memory_wake();
    threads_end_here(machine);
}

bool threads_end_here(Machine *machine) {
    const bool ends = __atomic_load_n(&is_terminated[machine->place], __ATOMIC_RELAXED) && !machine->is_busy;
    if (ends) machine->exit_status = THREAD_TERMINATED;
    return ends;
}

/* Threads */

static int64_t add_thread(State state) {
    if (++thread_count >= thread_room) {
        thread_room = thread_room ? 2 * thread_room : 1024;
        states = more_memory(states, (size_t)thread_room);
    }
    states[thread_count] = (unsigned char)state;
    return thread_count;
}

static Waiter *new_waiter(int64_t thread) {
    Waiter *const waiter = memset(more_memory(NULL, sizeof *waiter), 0, sizeof *waiter);
    waiter->thread = thread;
    pthread_cond_init(&waiter->woken, NULL);
    return waiter;
}

static void free_waiter(Waiter *waiter) {
    pthread_cond_destroy(&waiter->woken);
    free(waiter);
}

void threads_open(Machine *machine, unsigned most_at_once, void (*ends)(int status)) {
    end_program = ends;
    most = most_at_once;
    running = 1;
    places[0] = add_thread(STATE_LIVE);
    machine->waiter = new_waiter(FIRST_THREAD);
}

bool threads_are_left(void) {
    pthread_mutex_lock(&lock);
    const bool are_left = live != 0;
    pthread_mutex_unlock(&lock);
    return are_left;
}

static void free_mutex_list(Mutex *mutex) {
    while (mutex) {
        Mutex *const next = mutex->next;
        free(mutex);
        mutex = next;
    }
}

void threads_close(Machine *machine) {
    free_waiter(machine->waiter);
    for (unsigned bucket = 0; bucket < BUCKETS; bucket++) free_mutex_list(mutexes[bucket]);
    free_mutex_list(free_mutexes);
    free(states);
}

void threads_limit(Machine *machine, unsigned dest, unsigned unused, unsigned unused_too, unsigned unused_as_well) {
    UNUSED(unused);
    UNUSED(unused_too);
    UNUSED(unused_as_well);
    machine_set(machine, dest, integer(most));
}

void threads_new(Machine *machine, unsigned dest, unsigned unused, unsigned unused_too, unsigned unused_as_well) {
    UNUSED(unused);
    UNUSED(unused_too);
    UNUSED(unused_as_well);
    pthread_mutex_lock(&lock);
    const int64_t thread = add_thread(STATE_NEW);
    pthread_mutex_unlock(&lock);
    machine_set(machine, dest, integer(thread));
}

/* The mutexes of a thread that has ended are nobody's, and whoever locks one is told so. */
static void abandon_mutexes(int64_t thread) {
    for (unsigned bucket = 0; bucket < BUCKETS; bucket++) {
        for (Mutex *mutex = mutexes[bucket]; mutex; mutex = mutex->next) {
            if (mutex->owner != thread && mutex->owner != -thread) continue;
            mutex->owner = 0;
            mutex->is_abandoned = true;
            wake(WAIT_MUTEX, mutex->number, true);
        }
    }
}

static void end_thread(int64_t thread, State state) {
    states[thread] = (unsigned char)state;
    abandon_mutexes(thread);
    wake(WAIT_END, thread, true);
}

static bool has_ended(int64_t thread) { return states[thread] >= STATE_ENDED; }

/* Whether a thread is to end. It is asked for without the lock too. */
static void set_terminated(unsigned place, bool is_to_end) { __atomic_store_n(&is_terminated[place], is_to_end, __ATOMIC_RELAXED); }

/* The thread has left the heap. */
static void leave_threads(int64_t thread, unsigned place, State state) {
    pthread_mutex_lock(&lock);
    places[place] = 0;
    set_terminated(place, false);
    live--;
    running--;
    end_thread(thread, state);
    if (!running) tell_all_wait();
    pthread_mutex_unlock(&lock);
}

static void end_by_fault(void) { end_program(1); }

static void free_machine(Machine *machine) {
    free_waiter(machine->waiter);
    free(machine->text);
    free(machine->trouble);
    free(machine);
}

static void *be_thread(void *with) {
    Machine *const machine = with;
    const int64_t thread = machine->waiter->thread;
    const unsigned place = machine->place;
    fault_ends_by(end_by_fault);
    memory_enter(machine->registers);
    machine_run_thread(machine);
    if (machine->exit_status >= 0 && machine->exit_status < THREAD_ENDS) end_program(machine->exit_status);
    const State state = machine->exit_status == THREAD_TERMINATED ? STATE_TERMINATED : STATE_ENDED;
    machine_set_own(place, REGISTER_NIL);
    memory_leave();
    free_machine(machine);
    leave_threads(thread, place, state);
    return NULL;
}

/* A machine of a new thread. */
static Machine *new_machine(const Machine *by, int64_t thread) {
    Machine *const machine = memset(more_memory(NULL, sizeof *machine), 0, sizeof *machine);
    memcpy(machine->word + REGISTERS, by->word + REGISTERS, CONSTANTS * sizeof *machine->word);
    machine->constants = by->constants;
    machine->end = by->end;
    machine->output = stdout;
    machine->exit_status = -1;
    machine->trouble = more_memory(NULL, sizeof *machine->trouble);
    machine->own[OWN_STATE] = machine->own[OWN_BINDINGS] = EMPTY_LIST;
    machine->own[OWN_OUTPUT] = STANDARD_OUTPUT;
    machine->waiter = new_waiter(thread);
    return machine;
}

/* Starts a thread of the system, which has registers; whether there is one. */
static bool start_system_thread(Machine *machine) {
    pthread_attr_t attributes;
    pthread_t started;
    pthread_attr_init(&attributes);
    pthread_attr_setdetachstate(&attributes, PTHREAD_CREATE_DETACHED);
    memory_rest(); /* a pause waits for the other's registers, and so may this thread */
    MemoryPlace *const registers = machine->registers = memory_place();
    const bool is_started = registers && !pthread_create(&started, &attributes, be_thread, machine); /* which frees the machine */
    if (registers && !is_started) memory_forget(registers);
    memory_wake();
    pthread_attr_destroy(&attributes);
    return is_started;
}

/* A place for a thread that begins, or 0 where there are as many as may be, or it isn't new. */
static unsigned take_place(int64_t thread, State *state) {
    unsigned place = 0;
    pthread_mutex_lock(&lock);
    *state = states[thread];
    if (*state == STATE_NEW && live < most) {
        for (place = 1; places[place]; place++) continue;
        places[place] = thread;
        states[thread] = STATE_LIVE;
        live++;
        running++;
    }
    pthread_mutex_unlock(&lock);
    return place;
}

/* The thread didn't begin after all, and may yet, unless it was terminated meanwhile. */
static void give_back_place(int64_t thread, unsigned place) {
    pthread_mutex_lock(&lock);
    states[thread] = STATE_NEW;
    if (is_terminated[place]) end_thread(thread, STATE_TERMINATED);
    places[place] = 0;
    set_terminated(place, false);
    live--;
    running--;
    pthread_mutex_unlock(&lock);
}

void threads_start(Machine *machine, unsigned dest, unsigned record, unsigned number_operand, unsigned unused) {
    const int64_t thread = number(machine->word[number_operand]);
    State state;
    UNUSED(dest);
    UNUSED(unused);
    machine_new(machine, REGISTER_SCRATCH, OWN_ENTRIES, 1);
    memory_store(REGISTER_SCRATCH, OWN_THREAD, record);
    const unsigned place = take_place(thread, &state);
    if (state != STATE_NEW) {
        machine_fault(machine, "thread-start!: the thread %s before", state == STATE_TERMINATED ? "was terminated" : "has begun");
    }
    if (!place) machine_fault(machine, "thread-start!: more than %u threads at once beside the first", most);
    if (is_alone()) program.is_shared = true; /* by the first thread, as there is no other */
    machine_set_own(place, REGISTER_SCRATCH);
    Machine *const begun = new_machine(machine, thread);
    begun->place = place;
    begun->called_at = machine->called_at;
    begun->own[OWN_THREAD] = machine->word[record];
    if (start_system_thread(begun)) return;
    free_machine(begun);
    machine_set_own(place, REGISTER_NIL);
    give_back_place(thread, place);
    machine_fault(machine, "thread-start!: the system has no further thread");
}

void threads_end(Machine *machine, unsigned dest, unsigned unused, unsigned unused_too, unsigned unused_as_well) {
    UNUSED(dest);
    UNUSED(unused);
    UNUSED(unused_too);
    UNUSED(unused_as_well);
    machine->exit_status = THREAD_ENDS;
}

void threads_join(Machine *machine, unsigned dest, unsigned number_operand, unsigned moment_operand, unsigned unused) {
    struct timespec moment;
    const int64_t thread = number(machine->word[number_operand]);
    const bool is_timed = has_moment(machine, moment_operand, &moment);
    bool came = true;
    UNUSED(unused);
    begin_rest(machine);
    while (came && !has_ended(thread)) came = wait_for(machine, WAIT_END, thread, is_timed ? &moment : NULL);
    const bool was_terminated = states[thread] == STATE_TERMINATED;
    end_rest(machine);
    machine_set(machine, dest, integer(!came ? 0 : was_terminated ? 2 : 1));
}

/* Where a thread stands in the directory; the lock is held. */
static unsigned place_of(int64_t thread) {
    unsigned place = 0;
    while (place <= most && places[place] != thread) place++;
    return place <= most ? place : PLACES_MOST;
}

/* If a thread waits, it does no longer. */
static void wake_thread(int64_t thread) {
    Waiter *waiter = first_waiter;
    while (waiter && waiter->thread != thread) waiter = waiter->behind;
    if (!waiter) return;
    unlist_waiter(waiter);
    pthread_cond_signal(&waiter->woken);
}

/* It ends before this does, but where it is the thread that calls. */
void threads_terminate(Machine *machine, unsigned dest, unsigned number_operand, unsigned unused, unsigned unused_too) {
    const int64_t thread = number(machine->word[number_operand]);
    bool goes_on = true;
    UNUSED(dest);
    UNUSED(unused);
    UNUSED(unused_too);
    begin_rest(machine);
    if (states[thread] == STATE_NEW) end_thread(thread, STATE_TERMINATED);
    if (states[thread] == STATE_LIVE) {
        set_terminated(place_of(thread), true);
        wake_thread(thread);
    }
    while (goes_on && !has_ended(thread)) goes_on = wait_for(machine, WAIT_END, thread, NULL);
    end_rest(machine);
}

/* A thread that ends meanwhile isn't found, or still is. */
void threads_find(Machine *machine, unsigned dest, unsigned number_operand, unsigned unused, unsigned unused_too) {
    Word word;
    UNUSED(unused);
    UNUSED(unused_too);
    pthread_mutex_lock(&lock);
    const unsigned place = place_of(number(machine->word[number_operand]));
    pthread_mutex_unlock(&lock);
    machine_set(machine, dest, FALSE);
    if (place == PLACES_MOST) return;
    machine_load_own(REGISTER_SCRATCH, place);
    if (!memory_first(REGISTER_SCRATCH, &word)) return;
    memory_load(dest, REGISTER_SCRATCH, OWN_THREAD);
    machine_set(machine, dest, machine->own[OWN_THREAD]); /* the word is the same for all threads */
}

void threads_yield(Machine *machine, unsigned dest, unsigned unused, unsigned unused_too, unsigned unused_as_well) {
    UNUSED(machine);
    UNUSED(dest);
    UNUSED(unused);
    UNUSED(unused_too);
    UNUSED(unused_as_well);
    memory_rest();
    sched_yield();
    memory_wake();
}

void threads_sleep(Machine *machine, unsigned dest, unsigned moment_operand, unsigned unused, unsigned unused_too) {
    struct timespec moment;
    UNUSED(dest);
    UNUSED(unused);
    UNUSED(unused_too);
    if (!has_moment(machine, moment_operand, &moment)) return;
    begin_rest(machine);
    wait_for(machine, WAIT_MOMENT, 0, &moment);
    end_rest(machine);
}

void threads_now(Machine *machine, unsigned dest, unsigned unused, unsigned unused_too, unsigned unused_as_well) {
    UNUSED(unused);
    UNUSED(unused_too);
    UNUSED(unused_as_well);
    make_real(machine, dest, now());
}

/* Mutexes; the lock is held */

void threads_new_number(Machine *machine, unsigned dest, unsigned unused, unsigned unused_too, unsigned unused_as_well) {
    UNUSED(unused);
    UNUSED(unused_too);
    UNUSED(unused_as_well);
    machine_set(machine, dest, integer(__atomic_add_fetch(&number_count, 1, __ATOMIC_RELAXED)));
}

/* Where the mutex of a number stands, or would. */
static Mutex **find_mutex(int64_t of) {
    Mutex **at = &mutexes[(uint64_t)of % BUCKETS];
    while (*at && (*at)->number != of) at = &(*at)->next;
    return at;
}

static void add_mutex(Mutex **at, int64_t of, int64_t owner) {
    Mutex *const mutex = free_mutexes ? free_mutexes : more_memory(NULL, sizeof *mutex);
    if (mutex == free_mutexes) free_mutexes = mutex->next;
    *mutex = (Mutex){.next = *at, .number = of, .owner = owner};
    *at = mutex;
}

static void remove_mutex(Mutex **at) {
    Mutex *const mutex = *at;
    *at = mutex->next;
    mutex->next = free_mutexes;
    free_mutexes = mutex;
}

enum { NOT_LOCKED, LOCKED, LOCKED_ABANDONED };

/* Locks a mutex if it is nobody's. */
static unsigned try_lock(int64_t of, int64_t owner) {
    Mutex **const at = find_mutex(of);
    if (*at && !(*at)->is_abandoned) return NOT_LOCKED;
    const bool was_abandoned = *at;
    if (!*at) add_mutex(at, of, owner);
    (*at)->owner = owner;
    (*at)->is_abandoned = owner && has_ended(owner < 0 ? -owner : owner);
    return was_abandoned ? LOCKED_ABANDONED : LOCKED;
}

/* Where the thread ends it may have been woken all the same, so another one is. */
static unsigned wait_to_lock(Machine *machine, int64_t of, int64_t owner, const struct timespec *moment) {
    bool came = true;
    begin_rest(machine);
    unsigned locked = try_lock(of, owner);
    while (!locked && came) {
        came = wait_for(machine, WAIT_MUTEX, of, moment);
        if (is_terminated[machine->place]) {
            wake(WAIT_MUTEX, of, false);
        } else {
            locked = try_lock(of, owner);
        }
    }
    machine->is_busy = locked && owner < 0;
    end_rest(machine);
    return locked;
}

void threads_lock(Machine *machine, unsigned dest, unsigned number_operand, unsigned owner_operand, unsigned moment_operand) {
    struct timespec moment;
    const int64_t of = number(machine->word[number_operand]), owner = number(machine->word[owner_operand]);
    const bool is_timed = has_moment(machine, moment_operand, &moment);
    pthread_mutex_lock(&lock);
    unsigned locked = try_lock(of, owner);
    pthread_mutex_unlock(&lock);
    machine->is_busy = locked && owner < 0;
    if (!locked) locked = wait_to_lock(machine, of, owner, is_timed ? &moment : NULL);
    machine_set(machine, dest, integer(locked));
}

static bool is_named_later(int64_t of) {
    const Mutex *const mutex = *find_mutex(of);
    return mutex && mutex->owner < 0;
}

/* The thread rests. Whether it isn't to end. */
static bool wait_for_name(Machine *machine, int64_t of) {
    bool came = true;
    while (came && is_named_later(of)) came = wait_for(machine, WAIT_NAME, of, NULL);
    return came;
}

void threads_name_owner(Machine *machine, unsigned dest, unsigned number_operand, unsigned unused, unsigned unused_too) {
    UNUSED(dest);
    UNUSED(unused);
    UNUSED(unused_too);
    const int64_t of = number(machine->word[number_operand]);
    pthread_mutex_lock(&lock);
    Mutex *const mutex = *find_mutex(of);
    if (mutex && mutex->owner < 0) mutex->owner = -mutex->owner;
    wake(WAIT_NAME, of, true);
    pthread_mutex_unlock(&lock);
    machine->is_busy = false;
}

static void unlock_mutex(int64_t of) {
    Mutex **const at = find_mutex(of);
    if (!*at) return;
    remove_mutex(at);
    wake(WAIT_MUTEX, of, false);
}

void threads_unlock(Machine *machine, unsigned dest, unsigned number_operand, unsigned unused, unsigned unused_too) {
    UNUSED(dest);
    UNUSED(unused);
    UNUSED(unused_too);
    const int64_t of = number(machine->word[number_operand]);
    pthread_mutex_lock(&lock);
    const bool waits = is_named_later(of);
    if (!waits) unlock_mutex(of);
    pthread_mutex_unlock(&lock);
    if (!waits) return;
    begin_rest(machine);
    if (wait_for_name(machine, of)) unlock_mutex(of);
    end_rest(machine);
}

void threads_state(Machine *machine, unsigned dest, unsigned number_operand, unsigned unused, unsigned unused_too) {
    UNUSED(unused);
    UNUSED(unused_too);
    const int64_t of = number(machine->word[number_operand]);
    begin_rest(machine);
    wait_for_name(machine, of);
    const Mutex *const mutex = *find_mutex(of);
    const Word word = !mutex ? FALSE : mutex->is_abandoned ? TRUE : integer(mutex->owner);
    end_rest(machine);
    machine_set(machine, dest, word);
}

void threads_wait(Machine *machine, unsigned dest, unsigned number_operand, unsigned condition_operand, unsigned moment_operand) {
    struct timespec moment;
    const int64_t of = number(machine->word[number_operand]), condition = number(machine->word[condition_operand]);
    const bool is_timed = has_moment(machine, moment_operand, &moment);
    begin_rest(machine);
    const bool is_named = wait_for_name(machine, of);
    if (is_named) unlock_mutex(of);
    const bool came = is_named && wait_for(machine, WAIT_CONDITION, condition, is_timed ? &moment : NULL);
    end_rest(machine);
    machine_set(machine, dest, boolean(came));
}

void threads_signal(Machine *machine, unsigned dest, unsigned number_operand, unsigned all_operand, unsigned unused) {
    UNUSED(dest);
    UNUSED(unused);
    pthread_mutex_lock(&lock);
    wake(WAIT_CONDITION, number(machine->word[number_operand]), machine->word[all_operand] != FALSE);
    pthread_mutex_unlock(&lock);
}
