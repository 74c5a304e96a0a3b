// The benchmark's program. Its words:
//   check VECTORS            holds everything that is measured to the vectors; fails where anything is wrong
//   list                     prints who can be measured, a line each: ID, name, or - where this machine cannot run it, and the
//                            calls that it has, separated by |
//   time VECTORS [ID..]      checks, and then times every call of those makers, or of all, in short batches that take turns; a line
//                            for each call and maker: call, name, nanoseconds in the fastest batch, and by how many per cent the
//                            middle one lay above it
//   repeat ID TIMES..        makes each call that a maker has, in their order, so many times, for whoever counts instructions
//   calls CALL PIPES STREAM TIMES
//                            makes the call for each packet of a stream, so many times over
//   desk CALL PIPES STREAM TOOL OUT
//                            times that beside the desk tool, which writes to OUT; a line for each, as above
// CALL is scramble, even, or descramble, and PIPES the desk tool's file of pipes.
// Fields of a line are separated by tabs.
#include <stdio.h>
#include <stdlib.h>
#include <string.h>

#include "check.h"
#include "clock.h"
#include "maker.h"
#include "stream.h"

// Batches are shorter than a time slice, so that of many some are not interrupted.
enum { BATCHES = 40 };

static const double BATCH_NANOSECONDS = 1e6;

static struct vectors vectors;

static int check(const char *path)
{
    if (!read_vectors(path, &vectors))
        return 0;
    int engines = check_engines(&vectors), peers = check_peers(&vectors);
    return engines && peers;
}

static double nanoseconds(const struct maker *maker, enum call call, long times)
{
    double begin = now();
    repeat(maker, call, times);
    return now() - begin;
}

// How many calls make a batch: it takes one to two milliseconds.
static long calls_in_a_batch(const struct maker *maker, enum call call)
{
    long times = 1;
    while (nanoseconds(maker, call, times) < BATCH_NANOSECONDS)
        times *= 2;
    return times;
}

static int named(const struct maker *maker, char **ids, int count)
{
    for (int i = 0; i < count; i++)
        if (strcmp(ids[i], maker->id) == 0)
            return 1;
    return count == 0;
}

static int time_all(char **ids, int id_count)
{
    static double taken[MEASURED][MOST_MAKERS][BATCHES];
    static long times[MEASURED][MOST_MAKERS];
    struct maker all[MOST_MAKERS], makers[MOST_MAKERS];
    size_t count = 0, all_count = list_makers(all);
    for (size_t i = 0; i < all_count; i++)
        if (maker_name(&all[i]) != NULL && named(&all[i], ids, id_count)) {
            makers[count++] = all[i];
            start(&all[i]);
        }
    for (int batch = -1; batch < BATCHES; batch++)
        for (int call = 0; call < MEASURED; call++)
            for (size_t i = 0; i < count; i++) {
                long *calls = &times[call][i];
                if (batch < 0)
                    *calls = has_call(&makers[i], (enum call)call) ? calls_in_a_batch(&makers[i], (enum call)call) : 0;
                else if (*calls > 0)
                    taken[call][i][batch] = nanoseconds(&makers[i], (enum call)call, *calls) / (double)*calls;
            }
    for (int call = 0; call < MEASURED; call++)
        for (size_t i = 0; i < count; i++) {
            double *sorted = taken[call][i];
            if (times[call][i] == 0)
                continue;
            double spread = spread_of(sorted, BATCHES);
            printf("%s\t%s\t%.1f\t%.1f\n", call_names[call], maker_name(&makers[i]), sorted[0], spread);
        }
    return 0;
}

static int list(void)
{
    struct maker makers[MOST_MAKERS];
    size_t count = list_makers(makers);
    for (size_t i = 0; i < count; i++) {
        const char *before = "";
        printf("%s\t%s\t", makers[i].id, maker_name(&makers[i]) != NULL ? maker_name(&makers[i]) : "-");
        for (int call = 0; call < MEASURED; call++)
            if (has_call(&makers[i], (enum call)call)) {
                printf("%s%s", before, call_names[call]);
                before = "|";
            }
        puts("");
    }
    return 0;
}

static int repeat_calls(const char *id, char **times, int call_count)
{
    struct maker makers[MOST_MAKERS];
    size_t count = list_makers(makers), i = 0;
    while (i < count && strcmp(makers[i].id, id) != 0)
        i++;
    if (i == count || maker_name(&makers[i]) == NULL) {
        fprintf(stderr, "no %s here\n", id);
        return 2;
    }
    start(&makers[i]);
    int had = 0;
    for (int call = 0; call < MEASURED && had < call_count; call++)
        if (has_call(&makers[i], (enum call)call))
            repeat(&makers[i], (enum call)call, strtol(times[had++], NULL, 10));
    return 0;
}

// The words from CALL to STREAM.
static struct stream stream_of(char **words)
{
    return (struct stream){strcmp(words[0], "scramble") == 0 ? SCRAMBLE : DESCRAMBLE, words[1], words[2]};
}

int main(int count, char **words)
{
    if (count == 3 && strcmp(words[1], "check") == 0)
        return !check(words[2]);
    if (count >= 3 && strcmp(words[1], "time") == 0)
        return check(words[2]) ? time_all(words + 3, count - 3) : 1;
    if (count == 2 && strcmp(words[1], "list") == 0)
        return list();
    if (count >= 3 && strcmp(words[1], "repeat") == 0)
        return repeat_calls(words[2], words + 3, count - 3);
    if (count == 6 && strcmp(words[1], "calls") == 0)
        return repeat_stream(stream_of(words + 2), strtol(words[5], NULL, 10));
    if (count == 7 && strcmp(words[1], "desk") == 0)
        return time_stream(stream_of(words + 2), words[5], words[6]);
    fputs("usage: check VECTORS | list | time VECTORS [ID..] | repeat ID TIMES.. |\n"
          "    calls CALL PIPES STREAM TIMES | desk CALL PIPES STREAM TOOL OUT\n",
          stderr);
    return 2;
}
