// Opens a peers.dat, takes a message, and picks a peer to connect to: pick PEERS.DAT.
//
//     g++ -std=c++17 bindings/examples/pick.cpp bin/lib/libaddrman.a -o bin/pick
#include "../addrman.hpp"

#include <ctime>
#include <fstream>
#include <iostream>
#include <iterator>
#include <random>

int main(int argc, char **argv)
{
    if (argc != 2) return 2;
    std::random_device random;
    auto word = [&] { return std::uint64_t(random()) << 32 | random(); };
    auto now = static_cast<std::uint32_t>(std::time(nullptr));
    std::ifstream in(argv[1], std::ios::binary);
    libaddrman::bytes file(std::istreambuf_iterator<char>(in), {});
    try {
        libaddrman::tables known(file, ADDRMAN_MAIN, {word(), word()});

        // An addrv2 message of one entry: 8.8.8.8:8333, seen now, with the services 9.
        libaddrman::bytes payload{1};
        for (int i = 0; i < 4; i++) payload.push_back(now >> 8 * i);
        for (int byte : {9, 1, 4, 8, 8, 8, 8, 0x20, 0x8d}) payload.push_back(byte);
        auto added = known.take_message(true, payload, libaddrman::parse_addr("1.2.3.4"), {word()}, now);
        std::cout << "added " << added.accepted << " of " << added.total << "\n";

        for (int attempt = 1; attempt <= 100; attempt++) {
            // Where the words do not suffice, more follow them.
            libaddrman::words words;
            std::optional<addrman_picked> picked;
            for (bool exhausted = true; exhausted && words.size() <= libaddrman::max_records;) {
                for (int i = 0; i < 300; i++) words.push_back(word());
                picked = known.select(false, ADDRMAN_ALL_NETS, words, now, &exhausted);
            }
            if (picked && known.judge(*picked, now, attempt) == ADDRMAN_TAKE) {
                std::cout << "connect to " << libaddrman::text_of(picked->peer) << "\n";
                return 0;
            }
        }
    } catch (const libaddrman::refused &e) {
        std::cerr << argv[1] << ": fault " << e.fault.kind << " at " << e.fault.at << "\n";
    }
    return 1;
}
