/*
 * A system that makes it hard, by what SYSTEM is in the environment: `threads`, it refuses each second thread that it is asked for; `slow`,
 * it refuses memory of more than three megabytes, and a program that has told a fault takes its time to end. Linked with --wrap for each
 * function that is wrapped here. SPDX: MIT OR Apache-2.0
 */
#define _POSIX_C_SOURCE 200809L
#include <errno.h>
#include <pthread.h>
#include <setjmp.h>
#include <stdbool.h>
#include <stdlib.h>
#include <string.h>
#include <time.h>

int __real_pthread_create(pthread_t *thread, const pthread_attr_t *attributes, void *(*begin)(void *), void *with);
int __wrap_pthread_create(pthread_t *thread, const pthread_attr_t *attributes, void *(*begin)(void *), void *with);
void *__real_realloc(void *old, size_t bytes);
void *__wrap_realloc(void *old, size_t bytes);
__attribute__((noreturn)) void __real__exit(int status);
__attribute__((noreturn)) void __wrap__exit(int status);
__attribute__((noreturn)) void __real_exit(int status);
__attribute__((noreturn)) void __wrap_exit(int status);
__attribute__((noreturn)) void __real_longjmp(jmp_buf to, int value);
__attribute__((noreturn)) void __wrap_longjmp(jmp_buf to, int value);

enum { MOST_BYTES = 3000000, SLOW_NANOSECONDS = 50000000 };

static bool is(const char *what) {
    const char *const told = getenv("SYSTEM");
    return told && strcmp(told, what) == 0;
}

static void take_time(void) {
    const struct timespec time = {.tv_nsec = SLOW_NANOSECONDS};
    if (is("slow")) nanosleep(&time, NULL);
}

int __wrap_pthread_create(pthread_t *thread, const pthread_attr_t *attributes, void *(*begin)(void *), void *with) {
    static int asked;
    const bool is_helper = !attributes; /* a thread of the heap's own, before all others */
    return is("threads") && !is_helper && asked++ % 2 ? EAGAIN : __real_pthread_create(thread, attributes, begin, with);
}

void *__wrap_realloc(void *old, size_t bytes) { return bytes > MOST_BYTES && is("slow") ? NULL : __real_realloc(old, bytes); }

void __wrap__exit(int status) {
    if (status) take_time();
    __real__exit(status);
}

void __wrap_exit(int status) {
    if (status) take_time();
    __real_exit(status);
}

void __wrap_longjmp(jmp_buf to, int value) {
    take_time();
    __real_longjmp(to, value);
}
