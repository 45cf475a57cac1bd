// The frames of a file, for bench/peer.cc and bench/peer_select.cc.
#include <cstdio>
#include <cstring>
#include <exception>
#include <string>
#include <vector>

// Calls `work` with each frame, its number from 1 and its place, prints how many it took and how many it threw at, and returns the status.
template <typename Work> int for_each_frame(const char *path, Work work) {
    FILE *file = fopen(path, "rb");
    if (!file) return 2;
    fseek(file, 0, SEEK_END);
    std::vector<unsigned char> octets(ftell(file));
    rewind(file);
    if (fread(octets.data(), 1, octets.size(), file) != octets.size()) return 2;
    size_t at = 0, frames = 0, refused = 0;
    while (at + 12 <= octets.size()) {
        auto found = (unsigned char *)memmem(octets.data() + at, octets.size() - at, "BUFR", 4);
        if (!found) break;
        size_t place = found - octets.data(), length = found[4] << 16 | found[5] << 8 | found[6];
        if (length < 12 || place + length > octets.size() || memcmp(found + length - 4, "7777", 4)) {
            at = place + 1;
            continue;
        }
        frames++;
        try {
            work(std::string((char *)found, length), frames, place);
        } catch (std::exception &) {
            refused++;
        }
        at = place + length;
    }
    fprintf(stderr, "%zu %zu\n", frames - refused, refused);
    return refused != 0;
}
