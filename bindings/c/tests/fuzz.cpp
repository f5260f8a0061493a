// For libFuzzer: a byte string is read as calls, and each is compared with std::map.
#include "model.hpp"

extern "C" int LLVMFuzzerTestOneInput(const uint8_t *data, size_t size) {
    size_t at = 0;
    auto byte = [&]() -> uint8_t { return at < size ? data[at++] : 0; };
    auto key = [&]() {
        std::string k(byte() % 12, 0);
        for (auto &b : k) b = (char)byte();
        return k;
    };
    art_map *map = nullptr;
    if (art_new(&map) != ART_ADDED) return 0;
    Model model;
    while (at < size) {
        Call call;
        call.kind = byte();
        call.key = key();
        call.other = call.kind % KINDS >= 14 ? key() : std::string();
        call.value = byte();
        call.room = byte() % 16;
        if (call.kind == 255) {
            art_clear(map);
            model.clear();
        }
        make(map, model, call);
    }
    same_content(map, model);
    art_free(map);
    return 0;
}
