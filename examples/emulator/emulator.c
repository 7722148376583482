/* An emulator with late traps, written from docs/ alone, which passes all of the suite in conformance/. This file
 * takes in the others, in the order in which they are read:
 *
 *   cc -O2 -o emulator examples/emulator/emulator.c
 *
 *   emulator run [--watch] [--complete HOW] [--steps N] [--choices FILE] IMAGE
 *   emulator record [--seed N] [--choices FILE] [--complete HOW] [--steps N] IMAGE JOURNAL
 *   emulator replay IMAGE JOURNAL
 *
 * `run` with --choices makes the run whose traps come late as the words of the file say. Lines and statuses are
 * those of the program (docs/commands.md). */
#include "machine.h"
#include "words.c"
#include "images.c"
#include "values.c"
#include "steps.c"
#include "late.c"
#include "journals.c"

/* ---- ends */

static int tell_end(void)
{
    unsigned long long first = m.first, second = m.second;
    fwrite(m.output.at, 1, m.output.count, stdout);
    fflush(stdout);
    switch (m.end) {
    case NONE: fprintf(stderr, "steps\n"); return SPENT;
    case EXIT: fprintf(stderr, "exit %llu\n", first); return DONE;
    case SIGNAL: fprintf(stderr, "signal %llu at %016llx\n", first, second); return ENDED;
    case FETCH: fprintf(stderr, "fetch %016llx\n", first); return ENDED;
    case ACCESS: fprintf(stderr, "access %016llx address %016llx\n", first, second); return ENDED;
    case ALIGN: fprintf(stderr, "align %016llx address %016llx\n", first, second); return ENDED;
    case OVERFLOW: fprintf(stderr, "stop at %016llx\n", first); return ENDED;
    default: fprintf(stderr, "lost %016llx mask %llu\n", first, second); return TRAP_LOST;
    }
}

/* ---- words of the command */

static enum completion completion_of(const char *name)
{
    if (!strcmp(name, "saturate"))
        return SATURATE;
    return !strcmp(name, "stop") ? STOP : WRAP;
}

int main(int count, char **words)
{
    u64 steps = 100000000;
    const char *names[3] = {0};
    int named = 0, is_late = 0;
    setvbuf(stderr, NULL, _IOFBF, 65536); /* notes are many short lines */
    for (int n = 1; n < count; n++) {
        if (!strcmp(words[n], "--watch"))
            is_watched = 1;
        else if (!strncmp(words[n], "--", 2) && n + 1 == count)
            stop_with(2, "words");
        else if (!strcmp(words[n], "--complete"))
            m.completion = completion_of(words[++n]);
        else if (!strcmp(words[n], "--steps"))
            steps = strtoull(words[++n], NULL, 10);
        else if (!strcmp(words[n], "--seed"))
            choices.is_seeded = is_late = 1, choices.seed = strtoull(words[++n], NULL, 10);
        else if (!strcmp(words[n], "--choices"))
            is_late = 1, choices.file = whole(fopen(words[++n], "rb"));
        else if (named < 3)
            names[named++] = words[n];
    }
    if (named < 2 || (named < 3) != !strcmp(names[0], "run"))
        stop_with(2, "words");
    load_image(whole(fopen(names[1], "rb")));
    if (!strcmp(names[0], "replay"))
        return replay(whole(fopen(names[2], "rb")));
    m.input = whole(stdin);
    if (named == 3 || is_late)
        run_late(steps);
    else
        run_steps(steps);
    if (named == 3)
        keep_journal(names[2]);
    return tell_end();
}
