// The header in C++: it compiles, the archive links, and both are of one version.
#include "wulfrenda.h"

#include <array>
#include <cstdio>
#include <string>

int main() {
    if (wulfrenda_version() != WULFRENDA_VERSION) {
        std::fprintf(stderr, "tests/c/header.cpp: the header is of version %u, the archive of %u\n", unsigned{WULFRENDA_VERSION}, unsigned{wulfrenda_version()});
        return 1;
    }
    // one state, letter and colour; the edge; accept {0}; end
    const std::array<uint8_t, 13> bytes{1, 1, 1, 1, 0, 2, 0, 0, 0, 0, 3, 1, 0};
    std::array<uint8_t, WULFRENDA_RECORD_BYTES> record;
    size_t offset;
    uint8_t number = wulfrenda_read(bytes.data(), bytes.size(), record.data(), record.size(), &offset);
    if (number != WULFRENDA_OK || offset != bytes.size()) {
        std::fprintf(stderr, "tests/c/header.cpp: reading answers %u at %zu\n", number, offset);
        return 1;
    }
    // the same policy as a text
    const std::string text = "HOA: v1 States: 1 Start: 0 AP: 0 Acceptance: 0 t --BODY-- State: 0 0 --END--";
    std::array<uint8_t, WULFRENDA_RECORD_BYTES> read;
    size_t shared;
    number = wulfrenda_read_hanoi(reinterpret_cast<const uint8_t *>(text.data()), text.size(), read.data(), read.size(), &shared);
    if (number != WULFRENDA_OK || read != record) {
        std::fprintf(stderr, "tests/c/header.cpp: reading the text answers %u after %zu\n", number, shared);
        return 1;
    }
    // its one play meets priority 0 for ever: the supervisor wins it, with no letter where the plant picks
    const std::array<uint8_t, 1> owners{WULFRENDA_PLANT};
    std::array<uint64_t, 1> masks;
    std::array<uint16_t, 1> parents, leaves, targets;
    std::array<uint8_t, 1> node_priorities, sources, priorities, winners, letters;
    std::array<uint16_t, 3> counts;
    number = wulfrenda_solve(record.data(), record.size(), owners.data(), 1, masks.data(), 1, parents.data(), 1, node_priorities.data(), 1, sources.data(), 1,
                             leaves.data(), 1, targets.data(), 1, priorities.data(), 1, winners.data(), 1, letters.data(), 1, counts.data());
    if (number != WULFRENDA_OK || winners[0] != WULFRENDA_SUPERVISOR || letters[0] != WULFRENDA_NO_LETTER) {
        std::fprintf(stderr, "tests/c/header.cpp: solving answers %u, winner %u, letter %u\n", number, winners[0], letters[0]);
        return 1;
    }
    // the same edge without a colour: nothing recurs, and the empty set is accepted
    const std::array<uint8_t, 12> quiet_bytes{1, 1, 1, 1, 0, 4, 0, 0, 0, 3, 0, 0};
    const std::array<uint8_t, 1> loop{0};
    uint8_t colours = 9, accepted = 9;
    number = wulfrenda_read(quiet_bytes.data(), quiet_bytes.size(), read.data(), read.size(), &offset);
    if (number == WULFRENDA_OK && read[WULFRENDA_RECORD_QUIET] == 1) {
        number = wulfrenda_judge_policy(read.data(), read.size(), 0, loop.data(), 0, loop.data(), loop.size(), &colours, &accepted);
    }
    if (number != WULFRENDA_OK || colours != 0 || accepted != 1) {
        std::fprintf(stderr, "tests/c/header.cpp: judging a quiet loop answers %u, colours %u, accepted %u\n", number, colours, accepted);
        return 1;
    }
    // both policies accept their one cycle
    uint8_t same = 9;
    number = wulfrenda_compare(record.data(), record.size(), read.data(), read.size(), &same);
    if (number != WULFRENDA_OK || same != 1) {
        std::fprintf(stderr, "tests/c/header.cpp: comparing answers %u, %u\n", number, same);
        return 1;
    }
    std::printf("tests/c/header.cpp: version %u\n", unsigned{wulfrenda_version()});
    return 0;
}
