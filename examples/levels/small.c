/* The smallest user level in C: for each space one list of ready threads, first in, first out, without locks.
   cc -o small small.c && ./connect ./small < ../smallest.workload */
#include <stdio.h>
#include <string.h>

#define SPACES 16
#define THREADS 512 /* that a space ever makes */

/* Threads in a row, first in, first out. None is in it twice. */
struct row {
    int threads[THREADS];
    unsigned put, taken; /* how many threads ever were */
};

static struct row hands[SPACES]; /* threads that are to be made ready */
static struct row ready[SPACES];

static int size(const struct row *row) { return (int)(row->put - row->taken); }
static void put(struct row *row, int thread) { row->threads[row->put++ % THREADS] = thread; }
static int take(struct row *row) { return row->threads[row->taken++ % THREADS]; }

/* Writes the reply to a question. */
static void reply(int space, const char *thread, int demand, int processors) {
    if (size(&hands[space]) > 0) {
        int next = take(&hands[space]);
        put(&ready[space], next);
        printf("ready %d\n", next);
    } else if (strcmp(thread, "-") != 0) {
        puts("ins");
    } else if (size(&ready[space]) > 1 && demand < processors) {
        printf("want %d\n", demand + 1);
    } else if (size(&ready[space]) > 0) {
        printf("run %d\n", take(&ready[space]));
    } else {
        puts("idle");
    }
    fflush(stdout); /* a reply that stays behind would be waited for */
}

/* Standard input has the workload, and after it the session. */
int main(void) {
    char line[512], own[8];
    int processors = 0, space, thread, demand;
    for (space = 0; space < SPACES; space++) {
        put(&ready[space], 0); /* thread 0 of each space is ready at the opening */
    }
    while (fgets(line, sizeof line, stdin)) {
        sscanf(line, "processors %d", &processors);
        if (sscanf(line, "hand %d %d", &space, &thread) == 2) {
            put(&hands[space], thread);
        } else if (sscanf(line, "ask %*d %*d %d %*d %7s %d", &space, own, &demand) == 3) {
            reply(space, own, demand, processors);
        }
    }
    return 0;
}
