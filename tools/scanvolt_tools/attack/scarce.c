/*
 * A malloc whose memory can be used up. It is loaded before the C library. After SIGUSR1 it gives
 * no more memory, after SIGUSR2 it does again. It never reuses what was freed.
 */
#define _GNU_SOURCE
#include <dlfcn.h>
#include <errno.h>
#include <signal.h>
#include <stddef.h>

static volatile sig_atomic_t used_up;
static void *(*given_malloc)(size_t);
static void *(*given_realloc)(void *, size_t);

static void turn(int number)
{
    used_up = number == SIGUSR1;
}

__attribute__((constructor)) static void begin(void)
{
    given_malloc = (void *(*)(size_t))dlsym(RTLD_NEXT, "malloc");
    given_realloc = (void *(*)(void *, size_t))dlsym(RTLD_NEXT, "realloc");
    signal(SIGUSR1, turn);
    signal(SIGUSR2, turn);
}

void *malloc(size_t size)
{
    if (used_up) {
        errno = ENOMEM;
        return NULL;
    }
    return given_malloc(size);
}

void *realloc(void *block, size_t size)
{
    if (used_up) {
        errno = ENOMEM;
        return NULL;
    }
    return given_realloc(block, size);
}
