/* A part of the program that samples/threads.pb is a profile of. */
#include <stdint.h>

struct state {
    uint64_t seed;
};

void prepare(struct state *state);
int leaf(int i);
int tidy(struct state *state);

int work(int n)
{
    struct state state;
    int sum = 0;

    prepare(&state);
    /* the leaf does the work */
    for (int i = 0; i < n; i++)
        sum += leaf(i);
    return sum + tidy(&state);
}
