/* The first process: it sleeps while there is nothing else, begins the others, and waits for all of them. */
#include "user.h"

int main(void)
{
    static const char *const names[] = {"sort", "count", "locks", "digest", "wild"};
    u64 failed = 0;
    call(SLEEP, 2, 0);
    for (u64 program = SORT; program <= WILD; program++)
        call(SPAWN, program, 0);
    for (u64 i = 0; i < LENGTH(names); i++)
        failed |= wait();
    for (u64 i = 0; i < LENGTH(names); i++) {
        say(names[i]);
        say(i + 1 < LENGTH(names) ? ", " : failed ? " failed\n" : " ended well\n");
    }
    return failed;
}
