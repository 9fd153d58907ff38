/*
 * The stack that a function takes. It runs in a thread whose stack is painted beforehand. While the thread stands still after the
 * call, the stack is searched from its lowest word for the first that is not paint any more.
 */
#include <pthread.h>
#include <sched.h>
#include <stdatomic.h>
#include <stdint.h>
#include <stdlib.h>
#include <sys/wait.h>
#include <unistd.h>

enum { WORDS = 1 << 15 };
static const uint64_t PAINT = 0xa5a5a5a5a5a5a5a5;

/* Volatile, so that it is painted word by word, and no memset is called for it. */
static _Alignas(4096) volatile uint64_t stack[WORDS];

static struct {
    void (*run)(void);
    uintptr_t from; /* where the function's stack begins */
    atomic_bool done, searched;
} thread;

static void *in_thread(void *unused) {
    thread.from = (uintptr_t)__builtin_frame_address(0);
    thread.run();
    atomic_store(&thread.done, 1);
    while (!atomic_load(&thread.searched)) {
    }
    return unused;
}

static size_t stack_of(void (*run)(void)) {
    pthread_t id;
    pthread_attr_t attributes;
    for (size_t i = 0; i < WORDS; i++) stack[i] = PAINT;
    thread.run = run;
    atomic_store(&thread.done, 0);
    atomic_store(&thread.searched, 0);
    if (pthread_attr_init(&attributes) || pthread_attr_setstack(&attributes, (void *)stack, sizeof stack)) exit(2);
    if (pthread_create(&id, &attributes, in_thread, NULL)) exit(2);
    while (!atomic_load(&thread.done)) sched_yield();
    size_t clean = 0;
    while (stack[clean] == PAINT) clean++;
    atomic_store(&thread.searched, 1);
    pthread_join(id, NULL);
    return thread.from - (uintptr_t)(stack + clean);
}

/* The same in a process of its own, to be called before memcpy and memset are: the system's loader may bind them in this call. */
static size_t stack_of_first(void (*run)(void)) {
    size_t taken = 0;
    int ends[2];
    if (pipe(ends)) exit(2);
    pid_t id = fork();
    if (id == 0) {
        taken = stack_of(run);
        _exit(write(ends[1], &taken, sizeof taken) != sizeof taken);
    }
    if (id < 0 || read(ends[0], &taken, sizeof taken) != sizeof taken || waitpid(id, NULL, 0) != id) exit(2);
    close(ends[0]);
    close(ends[1]);
    return taken;
}
