// A stream of packets, through the calls and through the desk tool.
#define _POSIX_C_SOURCE 200809L
#include "stream.h"

#include <fcntl.h>
#include <spawn.h>
#include <stdio.h>
#include <stdlib.h>
#include <string.h>
#include <sys/wait.h>
#include <unistd.h>

#include "clock.h"
#include "expect.h"
#include "vectors.h"

enum { TURNS = 20, LINE = 256 };

// Packets that are held in memory.
struct packets {
    uint8_t *bytes;
    size_t count;
};

static int read_packets(const char *path, struct packets *packets)
{
    FILE *file = fopen(path, "rb");
    long size = file != NULL && fseek(file, 0, SEEK_END) == 0 ? ftell(file) : -1;
    int read = 0;
    if (size > 0 && size % PACKET_BYTES == 0 && (packets->bytes = malloc((size_t)size)) != NULL) {
        rewind(file);
        packets->count = (size_t)size / PACKET_BYTES;
        read = fread(packets->bytes, PACKET_BYTES, packets->count, file) == packets->count;
    }
    if (file != NULL)
        fclose(file);
    if (!read)
        fprintf(stderr, "%s: no packets that can be read\n", path);
    return read;
}

// PID EVENKEY ODDKEY START, seven lines; blank ones and those that begin with # are skipped.
static int read_pipes(const char *path, uint8_t pipes[PIPES_BYTES])
{
    char line[LINE];
    FILE *file = fopen(path, "r");
    size_t count = 0;
    while (file != NULL && count < PIPES && fgets(line, LINE, file) != NULL) {
        uint8_t *pipe = pipes + PIPE_BYTES * count, even[KEY_BYTES], odd[KEY_BYTES];
        line[strcspn(line, "\n")] = 0;
        if (line[0] == '#' || line[0] == 0)
            continue;
        if (!read_hex(strtok(line, " "), pipe, EVEN_AT) || !read_hex(strtok(NULL, " "), even, KEY_BYTES) ||
            !read_hex(strtok(NULL, " "), odd, KEY_BYTES) || !read_hex(strtok(NULL, " "), pipe + START_AT, BLOCK_BYTES))
            break;
        library.expand_key(even, KEY_BYTES, pipe + EVEN_AT, SCHEDULE_BYTES);
        library.expand_key(odd, KEY_BYTES, pipe + ODD_AT, SCHEDULE_BYTES);
        count++;
    }
    if (file != NULL)
        fclose(file);
    if (count != PIPES)
        fprintf(stderr, "%s: not seven pipes\n", path);
    return count == PIPES;
}

// The stream, what becomes of it, and the pipes.
struct work {
    struct packets from, to;
    uint8_t pipes[PIPES_BYTES];
};

static int start_work(struct stream stream, struct work *work)
{
    return read_pipes(stream.pipes_path, work->pipes) && read_packets(stream.path, &work->from) &&
           (work->to.bytes = calloc(work->to.count = work->from.count, PACKET_BYTES)) != NULL;
}

// The call for each packet; gives whether all were done.
static int make_calls(enum call call, const struct work *work)
{
    uint8_t replies = 0;
    for (size_t i = 0; i < work->from.count; i++) {
        const uint8_t *from = work->from.bytes + PACKET_BYTES * i;
        uint8_t *to = work->to.bytes + PACKET_BYTES * i;
        replies |= call == SCRAMBLE ? library.scramble(from, PACKET_BYTES, to, PACKET_BYTES, work->pipes, PIPES_BYTES, false)
                                    : library.descramble(from, PACKET_BYTES, to, PACKET_BYTES, work->pipes, PIPES_BYTES);
    }
    return replies == 0;
}

static int run_tool(struct stream stream, const char *tool, const char *out_path)
{
    const char *even[] = {tool, "scramble", "--pipes", stream.pipes_path, "--even", stream.path, out_path, NULL};
    const char *back[] = {tool, "descramble", "--pipes", stream.pipes_path, stream.path, out_path, NULL};
    char *const *words = (char *const *)(stream.call == SCRAMBLE ? even : back);
    extern char **environ;
    posix_spawn_file_actions_t quietly;
    pid_t process;
    int status = 1;
    posix_spawn_file_actions_init(&quietly);
    posix_spawn_file_actions_addopen(&quietly, STDERR_FILENO, "/dev/null", O_WRONLY, 0);
    if (posix_spawn(&process, tool, &quietly, NULL, words, environ) == 0)
        waitpid(process, &status, 0);
    posix_spawn_file_actions_destroy(&quietly);
    return status == 0;
}

int repeat_stream(struct stream stream, long times)
{
    struct work work;
    int done = start_work(stream, &work);
    while (done && times-- > 0)
        done = make_calls(stream.call, &work);
    return !done;
}

int time_stream(struct stream stream, const char *tool, const char *out_path)
{
    double by_calls[TURNS], by_tool[TURNS];
    struct work work;
    struct packets written;
    if (!start_work(stream, &work))
        return 1;
    for (size_t turn = 0; turn < TURNS; turn++) {
        double begin = now();
        int called = make_calls(stream.call, &work);
        double middle = now();
        if (!called || !run_tool(stream, tool, out_path)) {
            fprintf(stderr, "%s of %s fails\n", call_names[stream.call], stream.path);
            return 1;
        }
        by_calls[turn] = (middle - begin) / (double)work.from.count;
        by_tool[turn] = (now() - middle) / (double)work.from.count;
    }
    if (!read_packets(out_path, &written) || written.count != work.to.count ||
        !same(written.bytes, work.to.bytes, PACKET_BYTES * written.count)) {
        fprintf(stderr, "the desk tool has not written what the calls write\n");
        return 1;
    }
    double calls_spread = spread_of(by_calls, TURNS), tool_spread = spread_of(by_tool, TURNS);
    printf("%s\tthe calls\t%.1f\t%.1f\n", call_names[stream.call], by_calls[0], calls_spread);
    printf("%s\tthe desk tool\t%.1f\t%.1f\n", call_names[stream.call], by_tool[0], tool_spread);
    return 0;
}
