// A stream of packets: through the library's calls, and from file to file through the desk tool.
#ifndef STREAM_H
#define STREAM_H

#include "engine.h"

// What a stream is measured by: the call, the tool's file of pipes, and the stream.
struct stream {
    enum call call;
    const char *pipes_path, *path;
};

// Makes the call for every packet of the stream, so many times over, for whoever counts instructions.
int repeat_stream(struct stream stream, long times);

// Times that, and the tool from that file to another, in turns; prints a line for each of the two: call, who, nanoseconds for a
// packet in the fastest turn, and by how many per cent the middle one lay above it. Fails where the two write different packets.
int time_stream(struct stream stream, const char *tool, const char *out_path);

#endif
