// The header and the archive are usable from C++: every function is called once.
#include "batman.h"

#include <cstdio>
#include <vector>

static_assert(BATMAN_CELLS(BATMAN_CAPACITY_MOST) == BATMAN_CELLS_MOST, "BATMAN_CELLS of a constant is one");

static constexpr batman_settings defaults = BATMAN_SETTINGS_DEFAULT;
static_assert(defaults.tie == BATMAN_PRESENT_STAYS, "the last member is in the initialiser");

int main()
{
    batman_settings settings = defaults;
    settings.capacity = 2;
    batman_interfaces interfaces = {};
    interfaces.row[0] = {100, 255, 7};
    interfaces.used = 1;
    std::vector<uint64_t> cells(batman_cells_needed(settings.capacity));
    std::vector<uint8_t> output(BATMAN_READ_SIZE);
    std::vector<batman_link_row> rows(BATMAN_LINKS_MOST);

    bool right = batman_make(cells.data(), cells.size(), settings, interfaces) == 0;
    batman_written own = batman_own_packet(cells.data(), cells.size(), 0, 1, 50, 0, 0, nullptr, 0, output.data(), output.size());
    right = right && own.number == 0 && own.sequence == 7;
    right = right && batman_packet_check(output.data(), own.length, settings.version) == 0;
    std::vector<uint8_t> two_names = {4, 0, 50, 0, 0, 1, 0, 0, 0, 0, 0, 5, 10, 1, 0, 0, 16, 10, 1, 0, 7, 16}; // 10.1.0.0/16, and again with host bits
    uint64_t fault = batman_packet_check(two_names.data(), two_names.size(), settings.version);
    right = right && batman_refusal_number(fault) == BATMAN_HOST_BITS_SET && batman_refusal_place(fault) == 1;
    std::vector<uint8_t> echo(output.begin(), output.begin() + static_cast<long>(own.length));
    echo[1] = 64;
    batman_received heard = batman_receive(cells.data(), cells.size(), echo.data(), echo.size(), 5, 0, 2, output.data(), output.size());
    right = right && heard.number == BATMAN_ECHO;
    std::vector<uint64_t> lengths = {echo.size()}, heard_by = {0};
    std::vector<uint32_t> senders = {6};
    std::vector<batman_received> answers(BATMAN_PACKETS_MOST);
    batman_burst burst = batman_receive_burst(cells.data(), cells.size(), echo.data(), echo.size(), lengths.data(), lengths.size(), senders.data(), senders.size(),
                                              heard_by.data(), heard_by.size(), 2, output.data(), output.size(), answers.data(), answers.size());
    right = right && burst.number == 0 && burst.written == 0 && answers[0].number == BATMAN_ECHO;
    right = right && batman_best(cells.data(), cells.size(), 5).number == 0;
    right = right && batman_list(cells.data(), cells.size(), 5, rows.data(), rows.size()).filled == 0;
    right = right && batman_lookup(cells.data(), cells.size(), 5).found == 0;
    right = right && batman_sweep(cells.data(), cells.size(), 3).removed == 0;
    std::printf("C++: every function called; %s\n", right ? "all as they should" : "one answered wrongly");
    return right ? 0 : 1;
}
