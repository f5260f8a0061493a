// random N SEED: makes N random calls on the map and on std::map, and compares each result.
#include "model.hpp"

static uint64_t seed;
static uint64_t next() {
    seed ^= seed << 13;
    seed ^= seed >> 7;
    seed ^= seed << 17;
    return seed;
}

static std::string key() {
    std::string k(next() % 7, 0);
    for (auto &b : k) b = (char)(next() % 4 == 0 ? next() : 'a' + next() % 4);
    return k;
}

int main(int argc, char **argv) {
    long calls = argc > 1 ? std::atol(argv[1]) : 1000000, conflicts = 0;
    seed = argc > 2 ? std::strtoull(argv[2], nullptr, 10) : 88172645463325252ull;
    art_map *map = nullptr;
    if (art_new(&map) != ART_ADDED) return 1;
    Model model;
    for (long i = 0; i < calls; i++) {
        Call call{(uint8_t)(next() % KINDS), key(), key(), next(), (size_t)(next() % 9)};
        // few calls that remove much, so that the map grows
        if ((call.kind == 8 || call.kind == 9) && call.key.size() < 3) call.kind = 0;
        conflicts += make(map, model, call);
        if (i % 10000 == 0) same_content(map, model);
        if (i % 300000 == 299999) {
            art_clear(map);
            model.clear();
        }
    }
    same_content(map, model);
    std::printf("%ld calls, %zu pairs at the end, %ld conflicts: no difference\n", calls, model.size(), conflicts);
    art_free(map);
    return 0;
}
