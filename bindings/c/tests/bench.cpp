// Times this map through C beside std::map, absl::btree_map and Judy.
//
//   bench [KEYS ..]
//
// KEYS is the number of keys: 100000 and then 1000000 if there is none. The keys are of three
// kinds. With each kind the maps make the same calls in turn, in a few rounds, and the shortest
// time of each call counts. A sum is taken over what the calls return. If two maps have different
// sums, the program says so and fails.
//
// absl::btree_map takes part if WITH_ABSL is defined, and Judy if WITH_JUDY is.
#include "art_map.h"
#include <algorithm>
#include <array>
#include <chrono>
#include <cstdio>
#include <cstdlib>
#include <cstring>
#include <endian.h>
#include <map>
#include <string>
#include <utility>
#include <vector>
#ifdef WITH_ABSL
#include <absl/container/btree_map.h>
#endif
#ifdef WITH_JUDY
#include <Judy.h>
#endif

// How many times each map is timed.
static const int ROUNDS = 5;

// Ends the program with an error.
[[noreturn]] static void fail(const char *why) {
    std::fprintf(stderr, "bench: %s\n", why);
    std::exit(1);
}

// ---- Keys ----

// The keys of a run. No key is a proper prefix of another.
struct Keys {
    std::vector<std::string> stored; // in random order
    std::vector<std::string> hits;   // the same keys, in another random order
    std::vector<std::string> misses; // keys like those, of which few or none are stored
};

// A kind of keys.
struct Kind {
    const char *name;
    bool texts; // whether the keys are texts that a zero byte ends; else they have eight bytes
    std::string (*key)(size_t place, bool missing);
};

static const uint64_t SEED = 88172645463325252ull;
static uint64_t state = SEED;

// Returns the next random number.
static uint64_t next() {
    state ^= state << 13;
    state ^= state >> 7;
    state ^= state << 17;
    return state;
}

// Returns the eight bytes of the number, the high one first.
static std::string big_endian(uint64_t number) {
    number = htobe64(number);
    return std::string((const char *)&number, sizeof number);
}

static std::string random_key(size_t, bool) { return big_endian(next()); }

// Returns the number of the place. A missing key is greater than all of these.
static std::string dense_key(size_t place, bool missing) {
    return big_endian(missing ? next() | 1ull << 63 : place);
}

static const char *const HOSTS[] = {
    "https://www.example.com/",  "https://www.news.site.org/", "https://www.shop.store.net/",
    "https://www.api.cloud.io/", "https://www.cdn.static.io/", "https://www.blog.writer.me/",
    "https://www.wiki.pedia.org/",
};

static const char *const WORDS[] = {
    "about/", "article/", "user/",    "item/", "product/", "image/",
    "page/",  "index/",   "archive/", "tag/",  "search/",  "comment/",
    "list/",  "view/",    "edit/",    "data/", "static/",  "assets/",
};

template <size_t N> static const char *one_of(const char *const (&words)[N]) {
    return words[next() % N];
}

// Returns an address: a host, one to four words, six digits and a zero byte. A missing key has a
// letter before the digits.
static std::string url_key(size_t, bool missing) {
    std::string key = one_of(HOSTS);
    for (uint64_t words = 1 + next() % 4; words > 0; words--) key += one_of(WORDS);
    if (missing) key += 'x';
    char digits[7];
    std::snprintf(digits, sizeof digits, "%06u", (unsigned)(next() % 1000000));
    return key.append(digits, sizeof digits);
}

static const Kind KINDS[] = {
    {"random", false, random_key},
    {"urls", true, url_key},
    {"dense", false, dense_key},
};

static void shuffle(std::vector<std::string> &keys) {
    for (size_t end = keys.size(); end > 1; end--) std::swap(keys[end - 1], keys[next() % end]);
}

// Makes the keys. They are the same on each run.
static Keys make_keys(const Kind &kind, size_t count) {
    state = SEED;
    Keys keys;
    for (size_t place = 0; place < count; place++) keys.stored.push_back(kind.key(place, false));
    for (size_t place = 0; place < count; place++) keys.misses.push_back(kind.key(place, true));
    shuffle(keys.stored);
    keys.hits = keys.stored;
    shuffle(keys.hits);
    return keys;
}

// ---- Maps ----
//
// Each map has four calls. The values are not zero.
// - `insert` gives the key the value, and returns whether the key is new.
// - `get` returns the value of the key, or zero if the key is not stored.
// - `remove` removes the key, and returns whether it was stored.
// - `walk` calls `visit` for each pair in order, with the first byte of the key and the value.

// This map, through C.
class Art {
    art_map *map = nullptr;

    static const uint8_t *bytes(const std::string &key) { return (const uint8_t *)key.data(); }

public:
    Art() {
        if (art_new(&map) != ART_ADDED) fail("art_new has no memory");
    }
    Art(const Art &) = delete;
    Art &operator=(const Art &) = delete;
    ~Art() { art_free(map); }

    bool insert(const std::string &key, uint64_t value) {
        uint64_t old = 0;
        return art_insert(map, bytes(key), key.size(), value, &old) == ART_ADDED;
    }
    uint64_t get(const std::string &key) {
        uint64_t value = 0;
        return art_get(map, bytes(key), key.size(), &value) ? value : 0;
    }
    bool remove(const std::string &key) {
        uint64_t value = 0;
        return art_remove(map, bytes(key), key.size(), &value);
    }
    // Reads pages of up to 1024 pairs.
    template <class Visit> void walk(Visit visit) {
        static uint8_t keys[65536];
        static size_t ends[1024];
        static uint64_t values[1024];
        std::string from;
        bool skip = false;
        size_t count, needed = 0;
        do {
            count = art_page(map, bytes(from), from.size(), skip, keys, sizeof keys, ends, 1024,
                             values, 1024, &needed);
            size_t begin = 0, last = 0;
            for (size_t i = 0; i < count; i++) {
                visit(keys[begin], values[i]);
                last = begin;
                begin = ends[i];
            }
            from.assign((const char *)keys + last, begin - last);
            skip = true;
        } while (count > 0 && needed > 0);
    }
};

// std::map or absl::btree_map.
template <class Map> class OfStrings {
    Map map;

public:
    bool insert(const std::string &key, uint64_t value) {
        return map.insert_or_assign(key, value).second;
    }
    uint64_t get(const std::string &key) {
        auto found = map.find(key);
        return found == map.end() ? 0 : found->second;
    }
    bool remove(const std::string &key) { return map.erase(key) == 1; }
    template <class Visit> void walk(Visit visit) {
        for (const auto &pair : map) visit((uint8_t)pair.first[0], pair.second);
    }
};

#ifdef WITH_JUDY
static_assert(sizeof(Word_t) == sizeof(uint64_t), "a value of Judy is a word");

// Writes the value of a key, and returns whether the key is new. A new key has the value zero.
static bool put(PPvoid_t place, uint64_t value) {
    if (place == PPJERR) fail("Judy has no memory");
    bool is_new = *place == nullptr;
    *place = (void *)value;
    return is_new;
}

static uint64_t value_at(PPvoid_t place) { return place == nullptr ? 0 : (uint64_t)*place; }

// JudyL, whose keys are numbers.
class JudyNumbers {
    Pvoid_t map = nullptr;

    static Word_t number(const std::string &key) {
        Word_t number;
        std::memcpy(&number, key.data(), sizeof number);
        return be64toh(number);
    }

public:
    JudyNumbers() {}
    JudyNumbers(const JudyNumbers &) = delete;
    JudyNumbers &operator=(const JudyNumbers &) = delete;
    ~JudyNumbers() { JudyLFreeArray(&map, PJE0); }

    bool insert(const std::string &key, uint64_t value) {
        return put(JudyLIns(&map, number(key), PJE0), value);
    }
    uint64_t get(const std::string &key) { return value_at(JudyLGet(map, number(key), PJE0)); }
    bool remove(const std::string &key) { return JudyLDel(&map, number(key), PJE0) == 1; }
    template <class Visit> void walk(Visit visit) {
        Word_t key = 0;
        for (PPvoid_t place = JudyLFirst(map, &key, PJE0); place != nullptr;
             place = JudyLNext(map, &key, PJE0))
            visit((uint8_t)(key >> 56), value_at(place));
    }
};

// JudySL, whose keys are texts that a zero byte ends.
class JudyTexts {
    Pvoid_t map = nullptr;

    static const uint8_t *text(const std::string &key) { return (const uint8_t *)key.data(); }

public:
    JudyTexts() {}
    JudyTexts(const JudyTexts &) = delete;
    JudyTexts &operator=(const JudyTexts &) = delete;
    ~JudyTexts() { JudySLFreeArray(&map, PJE0); }

    bool insert(const std::string &key, uint64_t value) {
        return put(JudySLIns(&map, text(key), PJE0), value);
    }
    uint64_t get(const std::string &key) { return value_at(JudySLGet(map, text(key), PJE0)); }
    bool remove(const std::string &key) { return JudySLDel(&map, text(key), PJE0) == 1; }
    template <class Visit> void walk(Visit visit) {
        uint8_t key[256] = {0}; // longer than every key
        for (PPvoid_t place = JudySLFirst(map, key, PJE0); place != nullptr;
             place = JudySLNext(map, key, PJE0))
            visit(key[0], value_at(place));
    }
};
#endif

// ---- Times ----

enum { INSERT, HIT, MISS, WALK, REMOVE, CALLS };
static const char *const CALL_NAMES[CALLS] = {"insert", "hit", "miss", "walk", "remove"};

// The nanoseconds of a call, and the sum over what the calls returned.
struct Timed {
    double nanos;
    uint64_t sum;
};
typedef std::array<Timed, CALLS> Times;

// Times a run of `count` calls, which returns their sum.
template <class Run> static Timed timed(size_t count, Run run) {
    auto began = std::chrono::steady_clock::now();
    uint64_t sum = run();
    std::chrono::duration<double, std::nano> spent = std::chrono::steady_clock::now() - began;
    return {spent.count() / (double)count, sum};
}

// Inserts the keys, with the values from one on, and returns how many are new.
template <class Map> static uint64_t inserted(Map &map, const std::vector<std::string> &keys) {
    uint64_t sum = 0, value = 0;
    for (const std::string &key : keys) sum += map.insert(key, ++value);
    return sum;
}

// Looks the keys up, and returns the sum of the values.
template <class Map> static uint64_t looked_up(Map &map, const std::vector<std::string> &keys) {
    uint64_t sum = 0;
    for (const std::string &key : keys) sum += map.get(key);
    return sum;
}

// Walks over all pairs. The sum depends on their order.
template <class Map> static uint64_t walked(Map &map) {
    uint64_t sum = 0, place = 0;
    map.walk([&](uint8_t first, uint64_t value) { sum += ++place * value + first; });
    return sum;
}

// Removes the keys, and returns how many were stored.
template <class Map> static uint64_t removed(Map &map, const std::vector<std::string> &keys) {
    uint64_t sum = 0;
    for (const std::string &key : keys) sum += map.remove(key);
    return sum;
}

// Times each call once, on a new map.
template <class Map> static Times one_round(const Keys &keys) {
    Map map;
    size_t count = keys.stored.size();
    Times times;
    times[INSERT] = timed(count, [&] { return inserted(map, keys.stored); });
    times[HIT] = timed(count, [&] { return looked_up(map, keys.hits); });
    times[MISS] = timed(count, [&] { return looked_up(map, keys.misses); });
    times[WALK] = timed(count, [&] { return walked(map); });
    times[REMOVE] = timed(count, [&] { return removed(map, keys.hits); });
    if (walked(map) != 0) fail("a map has pairs after all keys were removed");
    return times;
}

// A map, and how it is timed with keys of eight bytes and with texts.
struct Peer {
    const char *name;
    Times (*with_numbers)(const Keys &);
    Times (*with_texts)(const Keys &);
};

typedef OfStrings<std::map<std::string, uint64_t>> StdMap;
#ifdef WITH_ABSL
typedef OfStrings<absl::btree_map<std::string, uint64_t>> BTree;
#endif

// The first is this map.
static const std::vector<Peer> PEERS = {
    {"art_map", one_round<Art>, one_round<Art>},
    {"std::map", one_round<StdMap>, one_round<StdMap>},
#ifdef WITH_ABSL
    {"absl::btree_map", one_round<BTree>, one_round<BTree>},
#endif
#ifdef WITH_JUDY
    {"Judy", one_round<JudyNumbers>, one_round<JudyTexts>},
#endif
};

// Fails if a map has another sum than this map.
static void compare(const Kind &kind, const Peer &peer, const Times &ours, const Times &theirs) {
    for (int call = 0; call < CALLS; call++) {
        if (ours[call].sum == theirs[call].sum) continue;
        std::fprintf(stderr, "%s, %s: the sum of %s is %llu, and that of %s is %llu\n", kind.name,
                     CALL_NAMES[call], PEERS[0].name, (unsigned long long)ours[call].sum, peer.name,
                     (unsigned long long)theirs[call].sum);
        fail("the maps disagree");
    }
}

// Returns the shortest times of each map.
static std::vector<Times> shortest(const Kind &kind, const Keys &keys) {
    std::vector<Times> best;
    for (int round = 0; round < ROUNDS; round++) {
        for (size_t at = 0; at < PEERS.size(); at++) {
            const Peer &peer = PEERS[at];
            Times times = (kind.texts ? peer.with_texts : peer.with_numbers)(keys);
            if (round == 0) best.push_back(times);
            compare(kind, peer, best[0], times);
            for (int call = 0; call < CALLS; call++)
                best[at][call].nanos = std::min(best[at][call].nanos, times[call].nanos);
        }
    }
    return best;
}

// ---- The table, in Markdown ----

static const int RATIO_WIDTH = 5;

static int width(const Peer &peer) { return std::max((int)std::strlen(peer.name), 7); }

static void print_head(size_t count) {
    std::printf("\n%zu keys: the nanoseconds of a call. A ratio is the time of %s divided by that "
                "of the map before it.\n\n| Keys   | Call   |",
                count, PEERS[0].name);
    for (size_t at = 0; at < PEERS.size(); at++) {
        std::printf(" %*s |", width(PEERS[at]), PEERS[at].name);
        if (at > 0) std::printf(" %*s |", RATIO_WIDTH, "ratio");
    }
    std::printf("\n|--------|--------|");
    for (size_t at = 0; at < PEERS.size(); at++) {
        std::printf("%s:|", std::string(width(PEERS[at]) + 1, '-').c_str());
        if (at > 0) std::printf("%s:|", std::string(RATIO_WIDTH + 1, '-').c_str());
    }
    std::printf("\n");
}

static void print_rows(const Kind &kind, const std::vector<Times> &best) {
    for (int call = 0; call < CALLS; call++) {
        std::printf("| %-6s | %-6s |", kind.name, CALL_NAMES[call]);
        double ours = best[0][call].nanos;
        for (size_t at = 0; at < PEERS.size(); at++) {
            double nanos = best[at][call].nanos;
            std::printf(" %*.*f |", width(PEERS[at]), nanos < 10 ? 1 : 0, nanos);
            if (at > 0) std::printf(" %*.2f |", RATIO_WIDTH, ours / nanos);
        }
        std::printf("\n");
    }
    std::fflush(stdout);
}

static void print_table(size_t count) {
    print_head(count);
    for (const Kind &kind : KINDS) print_rows(kind, shortest(kind, make_keys(kind, count)));
}

int main(int words, char **word) {
    std::vector<size_t> counts;
    for (int at = 1; at < words; at++) counts.push_back(std::strtoull(word[at], nullptr, 10));
    if (counts.empty()) counts = {100000, 1000000};
    for (size_t count : counts) {
        if (count == 0) fail("KEYS is a number above zero");
        print_table(count);
    }
    return 0;
}
