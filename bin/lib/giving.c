// Gives back to the system, at a signal SIGUSR1, what the C library holds but the program does not use.
#include <malloc.h>
#include <signal.h>

static void give_back(int signal) {
    (void)signal;
    malloc_trim(0);
}

__attribute__((constructor)) static void begin(void) { signal(SIGUSR1, give_back); }
