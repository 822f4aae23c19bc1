/* Stands in front of the calls by which a program starts and joins threads, and tells after each join how many milliseconds it is since the
   first start. Nothing of it is proved. */
#define _GNU_SOURCE
#include <dlfcn.h>
#include <pthread.h>
#include <stdio.h>
#include <time.h>

static double first;

static double now(void) {
    struct timespec at;
    clock_gettime(CLOCK_MONOTONIC, &at);
    return at.tv_sec * 1e3 + at.tv_nsec / 1e6;
}

int pthread_create(pthread_t *thread, const pthread_attr_t *attr, void *(*start)(void *), void *arg) {
    int (*next)(pthread_t *, const pthread_attr_t *, void *(*)(void *), void *) = dlsym(RTLD_NEXT, "pthread_create");
    if (first == 0) {
        first = now();
    }
    return next(thread, attr, start, arg);
}

int pthread_join(pthread_t thread, void **result) {
    int (*next)(pthread_t, void **) = dlsym(RTLD_NEXT, "pthread_join");
    int answer = next(thread, result);
    fprintf(stderr, "%.3f\n", now() - first);
    return answer;
}
