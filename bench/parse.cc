// Reads lines from its input, parses each with RapidJSON (Debian's package rapidjson-dev) and writes as many replies: each at
// once with the argument `at-once`, or else gathered. Says on standard error how many lines were objects. What krillc's lines
// are timed against.

#include <cstdio>
#include <cstdlib>
#include <cstring>
#include <string>
#include <unistd.h>
#include <vector>
#include "rapidjson/document.h"

int main(int argc, char **argv) {
    bool at_once = argc > 1 && !strcmp(argv[1], "at-once");
    static const char reply[] = "{\"authority\":\"ta\",\"count\":12345,\"reply\":\"accepted\"}\n";
    const size_t length = sizeof reply - 1;
    std::vector<char> room(1 << 16);
    std::string gathered;
    size_t held = 0, objects = 0;
    // The room of the lines' values is kept from line to line.
    static char values[1 << 16];
    rapidjson::MemoryPoolAllocator<> pool(values, sizeof values);
    auto give = [&](const char *at, size_t count) {
        while (count > 0) {
            ssize_t took = write(1, at, count);
            if (took <= 0) exit(1);
            at += took;
            count -= took;
        }
    };
    for (;;) {
        if (held == room.size()) room.resize(2 * room.size());
        ssize_t took = read(0, room.data() + held, room.size() - held);
        if (took < 0) return 1;
        if (took == 0) break;
        held += took;
        char *at = room.data(), *end = at + held, *feed;
        while ((feed = static_cast<char *>(memchr(at, '\n', end - at)))) {
            {
                rapidjson::Document line(&pool);
                line.Parse(at, feed - at);
                objects += !line.HasParseError() && line.IsObject();
            }
            pool.Clear();
            if (at_once) {
                give(reply, length);
            } else {
                gathered.append(reply, length);
                if (gathered.size() >= 65536) {
                    give(gathered.data(), gathered.size());
                    gathered.clear();
                }
            }
            at = feed + 1;
        }
        held = end - at;
        memmove(room.data(), at, held);
    }
    give(gathered.data(), gathered.size());
    fprintf(stderr, "%zu\n", objects);
    return 0;
}
