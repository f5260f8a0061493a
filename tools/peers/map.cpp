// Times C++'s `std::map` on the keys that `artbench KEYS KIND keys` writes: map < KEYS-FILE
//
// The sums go to standard output, and are those that artbench prints for the same calls. The times go to standard error.
#include <algorithm>
#include <array>
#include <chrono>
#include <cstdint>
#include <cstdio>
#include <iostream>
#include <map>
#include <string>
#include <vector>

// How often the map is timed. The least time counts.
const int ROUNDS = 3;

// What one call was timed at.
struct Timed {
    std::string call;
    size_t count;
    uint64_t sum, nanos;
};

// Times a call that gives a sum over what it found.
template <class Run> Timed timed(const char *call, size_t count, Run run) {
    auto start = std::chrono::steady_clock::now();
    uint64_t sum = run();
    std::chrono::nanoseconds spent = std::chrono::steady_clock::now() - start;
    return {call, count, sum, (uint64_t)spent.count()};
}

// The keys of a run: those that are stored, the same ones in another order, and others, of which few or none are stored.
template <class Key> struct Keys {
    std::vector<Key> stored, hits, misses;
};

// Looks each key up.
template <class Key> uint64_t looked_up(const std::map<Key, uint64_t> &map, const std::vector<Key> &keys) {
    uint64_t sum = 0;
    for (const Key &key : keys) {
        auto found = map.find(key);
        if (found != map.end()) sum += found->second;
    }
    return sum;
}

// Removes each key.
template <class Key> uint64_t removed(std::map<Key, uint64_t> &map, const std::vector<Key> &keys) {
    uint64_t sum = 0;
    for (const Key &key : keys) {
        auto found = map.find(key);
        if (found == map.end()) continue;
        sum += found->second;
        map.erase(found);
    }
    return sum;
}

// Times each call once, on a new map.
template <class Key> std::vector<Timed> one_run(const Keys<Key> &keys) {
    std::vector<Key> own = keys.stored;
    size_t count = own.size();
    std::map<Key, uint64_t> map;
    std::vector<Timed> rows;
    rows.push_back(timed("insert", count, [&] {
        uint64_t place = 0;
        for (Key &key : own) map.insert_or_assign(std::move(key), place++);
        return (uint64_t)map.size();
    }));
    rows.push_back(timed("hit", count, [&] { return looked_up(map, keys.hits); }));
    rows.push_back(timed("miss", count, [&] { return looked_up(map, keys.misses); }));
    rows.push_back(timed("iter", count, [&] {
        uint64_t sum = 0;
        for (const auto &[key, value] : map) sum += value + key.size();
        return sum;
    }));
    rows.push_back(timed("iter, keys", count, [&] {
        uint64_t sum = 0;
        for (const auto &[key, value] : map) sum += value + (key.empty() ? 256 : (unsigned char)key[0]);
        return sum;
    }));
    rows.push_back(timed("iter_mut", count, [&] {
        for (auto &pair : map) pair.second += 1;
        return (uint64_t)map.size();
    }));
    rows.push_back(timed("remove", count, [&] { return removed(map, keys.hits); }));
    return rows;
}

// The bytes of a line of hexadecimal digits.
void read_key(const std::string &line, std::string &key) {
    for (size_t at = 0; at + 1 < line.size(); at += 2) key.push_back((char)std::stoi(line.substr(at, 2), nullptr, 16));
}

template <size_t N> void read_key(const std::string &line, std::array<unsigned char, N> &key) {
    for (size_t at = 0; at < N; at++) key[at] = (unsigned char)std::stoi(line.substr(2 * at, 2), nullptr, 16);
}

// The least time of each call over the rounds. Of the lines the first third is stored, the second are the hits, the last the misses.
template <class Key> std::vector<Timed> least(const std::vector<std::string> &lines) {
    Keys<Key> keys;
    size_t third = lines.size() / 3;
    for (size_t at = 0; at < lines.size(); at++) {
        Key key{};
        read_key(lines[at], key);
        (at < third ? keys.stored : at < 2 * third ? keys.hits : keys.misses).push_back(std::move(key));
    }
    std::vector<Timed> rows = one_run(keys);
    for (int round = 1; round < ROUNDS; round++) {
        std::vector<Timed> more = one_run(keys);
        for (size_t at = 0; at < rows.size(); at++) rows[at].nanos = std::min(rows[at].nanos, more[at].nanos);
    }
    return rows;
}

int main() {
    std::string head, line;
    std::getline(std::cin, head);
    std::vector<std::string> lines;
    while (std::getline(std::cin, line)) lines.push_back(line);
    std::string kind = head.substr(0, head.find(' '));
    std::vector<Timed> rows;
    if (kind == "random8" || kind == "dense8") rows = least<std::array<unsigned char, 8>>(lines);
    else if (kind == "random16") rows = least<std::array<unsigned char, 16>>(lines);
    else rows = least<std::string>(lines);
    std::cout << head << "\n";
    std::cerr << head << " keys: nanoseconds of C++'s std::map\n";
    for (const Timed &row : rows) {
        std::cout << row.call << " " << row.count << " " << row.sum << "\n";
        std::fprintf(stderr, "%20s %8llu\n", row.call.c_str(), (unsigned long long)(row.nanos / std::max<size_t>(row.count, 1)));
    }
}
