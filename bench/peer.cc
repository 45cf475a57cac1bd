// What the library wreport takes for a stream: it decodes each message (decode), or decodes and prints it (print).
// A measure for bench/peers, no tool. Build: g++ -O2 -o peer peer.cc -lwreport
#include "peer_frames.h"
#include <wreport/bulletin.h>

int main(int count, char **words) {
    if (count != 3) return 2;
    const bool prints = !strcmp(words[1], "print");
    return for_each_frame(words[2], [prints](const std::string &message, size_t, size_t) {
        auto bulletin = wreport::BufrBulletin::decode(message);
        if (prints) bulletin->print(stdout);
    });
}
