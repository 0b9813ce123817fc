// Carries out a log by addrman.hpp, as replay.c does: replay KEY|FILE < LOG.
#include "../addrman.hpp"

#include <fstream>
#include <iostream>
#include <iterator>
#include <sstream>

using namespace libaddrman;

static std::uint64_t rotated(std::uint64_t x, int by) { return x << by | x >> (64 - by); }

// The outputs of xoshiro256++, seeded as seed_from_u64 of Rust's rand_xoshiro does.
static words drawn(std::uint64_t from, std::size_t count)
{
    std::uint64_t s[4];
    for (auto &state : s) {
        std::uint64_t z = (from += 0x9e3779b97f4a7c15u);
        z = (z ^ z >> 30) * 0xbf58476d1ce4e5b9u;
        z = (z ^ z >> 27) * 0x94d049bb133111ebu;
        state = z ^ z >> 31;
    }
    words out;
    while (out.size() < count) {
        out.push_back(rotated(s[0] + s[3], 23) + s[0]);
        std::uint64_t t = s[1] << 17;
        s[2] ^= s[0];
        s[3] ^= s[1];
        s[1] ^= s[2];
        s[0] ^= s[3];
        s[2] ^= t;
        s[3] = rotated(s[3], 45);
    }
    return out;
}

static std::vector<std::string> split(const std::string &text, char by)
{
    std::vector<std::string> out;
    std::string part;
    std::istringstream in(text);
    while (std::getline(in, part, by)) out.push_back(part);
    return out;
}

static words read_words(const std::string &text)
{
    if (text == "-") return {};
    if (text[0] == '@') {
        auto parts = split(text.substr(1), ':');
        return drawn(std::stoull(parts[0]), std::stoull(parts[1]));
    }
    words out;
    for (auto &part : split(text, ',')) out.push_back(std::stoull(part));
    return out;
}

static bytes read_hex(const std::string &text)
{
    bytes out;
    if (text == "-") return out;
    for (std::size_t i = 0; i + 1 < text.size(); i += 2)
        out.push_back(static_cast<std::uint8_t>(std::stoul(text.substr(i, 2), nullptr, 16)));
    return out;
}

static std::uint32_t read_nets(const std::string &text)
{
    static const std::vector<std::string> names{"unroutable", "ipv4", "ipv6", "onion", "i2p", "cjdns", "internal"};
    if (text == "all") return ADDRMAN_ALL_NETS;
    std::uint32_t nets = 0;
    for (auto &part : split(text, ','))
        for (unsigned i = 0; i < names.size(); i++)
            if (part == names[i]) nets |= ADDRMAN_NET(i);
    return nets;
}

static std::string text_of(const addrman_record &r)
{
    std::ostringstream out;
    out << "peer " << text_of(r.peer) << " source " << text_of(r.source) << " time " << r.time << " services " << r.services
        << " success " << r.last_success << " try " << r.last_try << " attempts " << r.attempts;
    if (!r.bucket_count) out << " tried";
    for (std::uint32_t i = 0; i < r.bucket_count; i++) out << (i ? "," : " new ") << r.buckets[i];
    return out.str();
}

static std::string text_of(const char *found, const std::optional<addrman_picked> &picked, const char *none)
{
    if (!picked) return none;
    return std::string(found) + " " + text_of(picked->peer) + " " + std::to_string(picked->last_try);
}

static std::string message(tables &am, bool is_v2, const std::vector<std::string> &f, std::uint32_t now)
{
    static const char *faults[] = {"", "truncated", "non-canonical", "too-many", "bad-length", "too-long", "trailing"};
    auto w = read_words(f[3]);
    try {
        auto added = am.take_message(is_v2, read_hex(f[2]), parse_addr(f[1]), w, now);
        return "added " + std::to_string(added.accepted) + " of " + std::to_string(added.total);
    } catch (const refused &e) {
        return std::string("refused ") + faults[e.fault.kind];
    } catch (const short_words &e) {
        return "short " + std::to_string(e.need) + " " + std::to_string(w.size());
    }
}

static std::string sample(tables &am, const std::vector<std::string> &f, std::uint32_t now)
{
    auto w = read_words(f[4]);
    try {
        auto peers = am.sample(std::stoul(f[1]), std::stoul(f[2]), read_nets(f[3]), w, now);
        std::string out = "sample " + std::to_string(peers.size());
        for (auto &peer : peers) out += " " + text_of(peer);
        return out;
    } catch (const short_words &e) {
        return "short " + std::to_string(e.need) + " " + std::to_string(w.size());
    }
}

static std::string reply(tables &am, const std::vector<std::string> &f, std::uint32_t &now)
{
    static const char *outcomes[] = {"unknown", "already", "clash", "moved"};
    auto known = [](bool answer) { return answer ? "ok" : "unknown"; };
    std::ostringstream out;
    if (f[0] == "now") out << "now " << (now = std::stoul(f[1]));
    else if (f[0] == "addr" || f[0] == "addrv2") return message(am, f[0] == "addrv2", f, now);
    else if (f[0] == "sample") return sample(am, f, now);
    else if (f[0] == "good") return outcomes[am.good(parse_peer(f[1]), f[2] == "test", now)];
    else if (f[0] == "attempt") return known(am.attempt(parse_peer(f[1]), f[2] == "count", now));
    else if (f[0] == "connected") return known(am.connected(parse_peer(f[1]), now));
    else if (f[0] == "services") return known(am.set_services(parse_peer(f[1]), std::stoull(f[2])));
    else if (f[0] == "clash") return text_of("clash", am.select_collision(std::stoull(f[1])), "none");
    else if (f[0] == "find") {
        auto record = am.find(parse_peer(f[1]));
        return record ? text_of(*record) : "unknown";
    } else if (f[0] == "select") {
        bool exhausted;
        auto picked = am.select(f[1] == "new", read_nets(f[2]), read_words(f[3]), now, &exhausted);
        return exhausted ? "exhausted" : text_of("one", picked, "nothing");
    } else if (f[0] == "size") {
        auto c = am.size();
        out << "size new " << c.new_count << " tried " << c.tried_count << " clashes " << c.collisions;
    } else if (f[0] == "resolve") {
        auto r = am.resolve_collisions(now);
        out << "resolved erased " << r.erased << " moved " << r.moved << " kept " << r.kept;
    } else if (f[0] == "dump") {
        auto records = am.records();
        for (auto &r : records) out << text_of(r) << "\n";
        out << "end " << records.size();
    } else if (f[0] == "save") {
        // by requests, in pieces of 1000 bytes
        save job(am, ADDRMAN_MAIN, 1000);
        std::ofstream file;
        while (auto request = job.next()) {
            if (request->what == ADDRMAN_CREATE) file.open("peers.dat", std::ios::binary);
            if (request->what == ADDRMAN_SYNC) file.close();
            file.write(reinterpret_cast<const char *>(request->piece.data()), request->piece.size());
            job.done(true);
        }
        return "saved";
    } else throw std::runtime_error(f[0]);
    return out.str();
}

static tables opened(const std::string &start)
{
    std::ifstream in(start, std::ios::binary);
    if (in) return tables(bytes(std::istreambuf_iterator<char>(in), {}), ADDRMAN_MAIN, seed{1, 2});
    key k{};
    auto raw = read_hex(start);
    std::copy(raw.begin(), raw.end(), k.begin());
    return tables(k, seed{1, 2});
}

int main(int, char **argv)
{
    std::ios::sync_with_stdio(false);
    tables am = opened(argv[1]);
    tables moved(std::move(am)), other(key{}, seed{1, 2});
    other = std::move(moved);
    moved = std::move(other);
    std::uint32_t now = 0;
    std::string line;
    while (std::getline(std::cin, line))
        if (!line.empty() && line[0] != '#') std::cout << reply(moved, split(line, ' '), now) << "\n";
    try {
        am.size();
        return 1;
    } catch (const std::logic_error &) {
    }
}
