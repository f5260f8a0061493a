// Each allocation is refused in turn: the call returns ART_NO_MEMORY, the map is unchanged, and
// nothing leaks. It is linked without heap.c, which it replaces.
#include "model.hpp"

static long left = -1, live = 0;
struct block { bool ok; void *at; };
static char none;

extern "C" block rattle_alloc(size_t size, size_t align) {
    if (left == 0) return {false, &none};
    if (left > 0) left--;
    live++;
    return {true, std::malloc(size ? size : align)};
}
extern "C" block rattle_realloc(void *at, size_t, size_t size, size_t align) {
    if (left == 0) return {false, &none};
    if (left > 0) left--;
    return {true, std::realloc(at, size ? size : align)};
}
extern "C" void rattle_dealloc(void *at) {
    live--;
    std::free(at);
}

int main() {
    long refused = 0;
    for (long allowed = 0; allowed < 700; allowed++) {
        art_map *map = nullptr;
        left = allowed;
        if (art_new(&map) != ART_ADDED) {
            CHECK(map == nullptr && live == 0);
            refused++;
            left = -1;
            continue;
        }
        Model model;
        for (int i = 0; i < 300; i++) {
            std::string key = "key" + std::to_string((i * 7919) % 997) + ".";
            uint64_t old = 5;
            bool over = i % 10 == 9;
            uint32_t code = over ? art_overwrite(map, bytes(key), key.size(), i)
                                 : art_insert(map, bytes(key), key.size(), i, &old);
            if (code == ART_NO_MEMORY) {
                CHECK(old == 5);
                refused++;
                left = -1;
                same_content(map, model);
                left = allowed % 13;
                continue;
            }
            CHECK(code == ART_ADDED);
            model[key] = i;
            CHECK(art_len(map) == model.size());
        }
        left = 0;
        same_content(map, model);
        // a conflict is told even if the key cannot be copied
        std::string more = model.begin()->first + "x";
        uint64_t kept = 5;
        CHECK(art_insert(map, bytes(more), more.size(), 1, &kept) == ART_CONFLICT && kept == 5);
        CHECK(art_insert(map, bytes(more), 1, 1, &kept) == ART_CONFLICT && kept == 5);
        for (auto &pair : model) {
            uint64_t value = 0;
            CHECK(art_remove(map, bytes(pair.first), pair.first.size(), &value) && value == pair.second);
        }
        CHECK(art_len(map) == 0);
        art_free(map);
        CHECK(live == 0);
        left = -1;
    }
    std::printf("%ld allocations refused: no difference, nothing leaks\n", refused);
    return 0;
}
