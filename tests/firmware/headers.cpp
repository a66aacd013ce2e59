// headers: the headers of firmware/ in a program in C++, which is linked with the objects of C.
#include "../../firmware/sdhci.h"
#ifdef PROVED
#include "../../firmware/sdv_player.h"
#else
#include "../../firmware/sdv_step.h"
#endif

namespace {

// A controller that never comes out of its reset.
class Board {
public:
    static uint32_t read(void *, uint32_t) { return 0xFFFFFFFFu; }
    static void write(void *, uint32_t, uint32_t) {}
    static uint32_t milliseconds(void *board) { return static_cast<Board *>(board)->now++; }

private:
    uint32_t now = 0xFFFFFF00u;
};

}

int main()
{
    static const uint32_t words[1] = {0};
    Board board;
    sdhci host = {};
    sdv_state state;
    sdv_event event;

    host.port.read = Board::read;
    host.port.write = Board::write;
    host.port.milliseconds = Board::milliseconds;
    host.port.board = &board;
    if (sdhci_start(&host) || sdv_is_table(words, 1) || sdv_start(words, 1, &state))
        return 1;
    return sdv_next(words, 1, &state, &event) != SDV_STOPPED;
}
