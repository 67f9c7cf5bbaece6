/* Stops the threads of the program at instants that nobody planned, each for a time of its own, so that their steps come in orders that a
   machine left alone seldom makes. It is loaded before the system's library; DELAYS is what the delays are drawn from. A thread of its own
   sends the others a signal again and again, in whose handler they sleep, wherever they are just then. */
#define _GNU_SOURCE
#include <dirent.h>
#include <errno.h>
#include <pthread.h>
#include <signal.h>
#include <stdint.h>
#include <stdlib.h>
#include <sys/syscall.h>
#include <time.h>
#include <unistd.h>

enum { STOP = 35, LONGEST = 200000, BETWEEN = 400000 };

static uint64_t drawn;

static uint64_t draw(uint64_t *state) {
    *state ^= *state << 13, *state ^= *state >> 7, *state ^= *state << 17;
    return *state;
}

static void sleep_for(uint64_t nanoseconds) {
    struct timespec time = {0, (long)nanoseconds};
    syscall(SYS_nanosleep, &time, 0);
}

/* The stack's place and the clock tell the threads apart, and the stops of one thread. */
static void stop(int number) {
    int error = errno;
    struct timespec now;
    clock_gettime(CLOCK_MONOTONIC, &now);
    uint64_t state = drawn ^ (uint64_t)(uintptr_t)&now ^ (uint64_t)now.tv_nsec << 20 | 1;
    draw(&state);
    sleep_for(draw(&state) % LONGEST);
    errno = error;
}

static void *stop_others(void *unused) {
    pid_t own = (pid_t)syscall(SYS_gettid), process = getpid();
    uint64_t state = drawn;
    for (;;) {
        DIR *threads = opendir("/proc/self/task");
        for (struct dirent *it; threads && (it = readdir(threads));) {
            pid_t thread = (pid_t)atoi(it->d_name);
            if (thread > 0 && thread != own && draw(&state) % 2) syscall(SYS_tgkill, process, thread, STOP);
        }
        if (threads) closedir(threads);
        sleep_for(draw(&state) % BETWEEN);
    }
    return unused;
}

__attribute__((constructor)) static void start(void) {
    const char *text = getenv("DELAYS");
    drawn = (text ? strtoull(text, 0, 10) : 0) * 0x9E3779B97F4A7C15u + 1;
    struct sigaction action = {.sa_handler = stop, .sa_flags = SA_RESTART};
    sigaction(STOP, &action, 0);
    sigset_t all, before;
    sigfillset(&all);
    pthread_sigmask(SIG_SETMASK, &all, &before);
    pthread_t thread;
    if (pthread_create(&thread, 0, stop_others, 0) == 0) pthread_detach(thread);
    pthread_sigmask(SIG_SETMASK, &before, 0);
}
