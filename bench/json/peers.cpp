// Times another reader of JSON on a file, whose bytes are loaded as factoplan loads them: by pieces, which go behind one another into memory that grows.
//
//     peers READER FILE ROUNDS
//
// READER is rapidjson-events or rapidjson-tree (built with -DRAPIDJSON; Debian's rapidjson-dev), or simdjson-tree (with -DSIMDJSON and
// -lsimdjson; libsimdjson-dev). Each round reads the same bytes anew, with nothing kept of the one before. It prints whether they were
// accepted, and the processor seconds of the loading, of the first round and of the least.
#ifdef RAPIDJSON
#include <rapidjson/document.h>
#include <rapidjson/reader.h>
#endif
#ifdef SIMDJSON
#include <simdjson.h>
#endif
#include <algorithm>
#include <cstdio>
#include <cstdlib>
#include <cstring>
#include <ctime>
#include <fcntl.h>
#include <string>
#include <unistd.h>
#include <vector>

// Bytes that may be read behind the text: those that simdjson asks for, and a zero for RapidJSON.
const size_t ROOM = 64;

struct Text {
    char *bytes;
    size_t size;
};

static Text loaded(const char *name) {
    std::vector<char> piece(65536);
    Text text = {nullptr, 0};
    size_t capacity = 0;
    int file = open(name, O_RDONLY);
    for (ssize_t count; (count = read(file, piece.data(), piece.size())) > 0; text.size += count) {
        if (text.size + count + ROOM > capacity) text.bytes = static_cast<char *>(std::realloc(text.bytes, capacity = 2 * (capacity + piece.size())));
        std::memcpy(text.bytes + text.size, piece.data(), count);
    }
    close(file);
    if (text.bytes) std::memset(text.bytes + text.size, 0, ROOM);
    return text;
}

static bool accepted(const std::string &reader, const char *text, size_t size) {
#ifdef RAPIDJSON
    using namespace rapidjson;
    if (reader == "rapidjson-events") {
        Reader events;
        StringStream stream(text);
        BaseReaderHandler<> handler;
        return !events.Parse<kParseNanAndInfFlag | kParseValidateEncodingFlag | kParseNumbersAsStringsFlag>(stream, handler).IsError();
    }
    if (reader == "rapidjson-tree") {
        Document tree;
        tree.Parse<kParseNanAndInfFlag | kParseValidateEncodingFlag>(text, size);
        return !tree.HasParseError();
    }
#endif
#ifdef SIMDJSON
    if (reader == "simdjson-tree") {
        simdjson::dom::parser tree;
        return !tree.parse(text, size, false).error();
    }
#endif
    return false;
}

static double seconds(std::clock_t since) { return double(std::clock() - since) / CLOCKS_PER_SEC; }

int main(int, char **words) {
    std::clock_t start = std::clock();
    Text text = loaded(words[2]);
    double loading = seconds(start), first = 0, least = 0;
    bool good = text.bytes;
    for (int round = 0; good && round < std::atoi(words[3]); round++) {
        start = std::clock();
        good = accepted(words[1], text.bytes, text.size);
        double spent = seconds(start);
        first = round ? first : spent;
        least = round ? std::min(least, spent) : spent;
    }
    std::printf("%s %f %f %f\n", good ? "accepted" : "refused", loading, first, least);
}
