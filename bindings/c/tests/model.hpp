// The map by std::map, and one random call on both.
#pragma once
#include "art_map.h"
#include <cstdio>
#include <cstdlib>
#include <cstring>
#include <map>
#include <string>
#include <vector>

typedef std::map<std::string, uint64_t> Model;

static const uint8_t *bytes(const std::string &s) { return (const uint8_t *)s.data(); }
static bool begins(const std::string &a, const std::string &b) {
    return b.size() >= a.size() && b.compare(0, a.size(), a) == 0;
}

// The stored key that is a prefix of the query.
static Model::iterator prefix_of(Model &model, const std::string &query) {
    auto it = model.upper_bound(query);
    if (it == model.begin()) return model.end();
    --it;
    return begins(it->first, query) ? it : model.end();
}

static bool conflicts(Model &model, const std::string &key) {
    if (model.count(key)) return false;
    auto next = model.lower_bound(key);
    return prefix_of(model, key) != model.end() || (next != model.end() && begins(key, next->first));
}

#define CHECK(condition)                                                            \
    do {                                                                            \
        if (!(condition)) {                                                         \
            std::fprintf(stderr, "%s:%d: %s\n", __FILE__, __LINE__, #condition);    \
            std::abort();                                                           \
        }                                                                           \
    } while (0)

// Compares what a call copied out with the pair of the model.
static void same_pair(Model &model, Model::iterator it, uint32_t code, const std::vector<uint8_t> &buffer,
                      size_t len, uint64_t value) {
    if (it == model.end()) {
        CHECK(code == ART_NONE && len == 99 && value == 77);
        for (uint8_t b : buffer) CHECK(b == 0xee);
        return;
    }
    CHECK(len == it->first.size());
    if (len > buffer.size()) {
        CHECK(code == ART_TOO_SMALL && value == 77);
        for (uint8_t b : buffer) CHECK(b == 0xee);
        return;
    }
    CHECK(code == ART_FOUND && value == it->second);
    CHECK(std::memcmp(buffer.data(), it->first.data(), len) == 0);
    for (size_t i = len; i < buffer.size(); i++) CHECK(buffer[i] == 0xee);
}

// A call: what it does, a key, a second key, a value and the room of buffers.
struct Call {
    uint8_t kind;
    std::string key, other;
    uint64_t value;
    size_t room;
};

enum { KINDS = 16 };

// Copies out a page, and compares it with the pairs of the model from `it` up to `end`.
template <class Page>
static void same_page(Model::iterator it, Model::iterator end, size_t room, Page page) {
    std::vector<uint8_t> keys(4 * room, 0xee);
    std::vector<size_t> ends(room, 55);
    std::vector<uint64_t> values(room, 66);
    size_t needed = 123456;
    uint8_t none = 0;
    size_t none_end = 0;
    uint64_t none_value = 0;
    size_t count = page(room ? keys.data() : &none, keys.size(), room ? ends.data() : &none_end, room,
                        room ? values.data() : &none_value, room, &needed);
    size_t i = 0, used = 0;
    for (; it != end && i < room && used + it->first.size() <= keys.size(); ++it, ++i) {
        CHECK(i < count);
        CHECK(ends[i] == used + it->first.size() && values[i] == it->second);
        CHECK(std::memcmp(keys.data() + used, it->first.data(), it->first.size()) == 0);
        used = ends[i];
    }
    CHECK(i == count);
    CHECK(needed == (it == end ? 0 : it->first.size()));
    for (size_t k = used; k < keys.size(); k++) CHECK(keys[k] == 0xee);
    for (size_t k = i; k < room; k++) CHECK(ends[k] == 55 && values[k] == 66);
}

// Makes the call on both, and compares. Returns whether it was a conflict.
static inline bool make(art_map *map, Model &model, const Call &call) {
    const std::string &key = call.key, &other = call.other;
    uint64_t value = 77;
    size_t len = 99;
    bool conflict = false;
    std::vector<uint8_t> buffer(call.room, 0xee);
    uint8_t none = 0;
    uint8_t *out = call.room ? buffer.data() : &none;
    switch (call.kind % KINDS) {
    case 0: case 1: case 2: case 3: {
        conflict = conflicts(model, key);
        auto it = model.find(key);
        uint32_t code = art_insert(map, bytes(key), key.size(), call.value, &value);
        if (conflict) CHECK(code == ART_CONFLICT && value == 77);
        else if (it != model.end()) CHECK(code == ART_REPLACED && value == it->second);
        else CHECK(code == ART_ADDED && value == 77);
        if (!conflict) model[key] = call.value;
        break;
    }
    case 4: {
        auto it = model.find(key);
        CHECK(art_get(map, bytes(key), key.size(), &value) == (it != model.end()));
        CHECK(value == (it != model.end() ? it->second : 77));
        break;
    }
    case 5: {
        auto it = prefix_of(model, key);
        CHECK(art_prefix_get(map, bytes(key), key.size(), &len, &value) == (it != model.end()));
        CHECK(value == (it != model.end() ? it->second : 77));
        CHECK(len == (it != model.end() ? it->first.size() : 99));
        break;
    }
    case 6: case 7: {
        auto it = model.find(key);
        CHECK(art_remove(map, bytes(key), key.size(), &value) == (it != model.end()));
        CHECK(value == (it != model.end() ? it->second : 77));
        if (it != model.end()) model.erase(it);
        break;
    }
    case 8: {
        CHECK(art_overwrite(map, bytes(key), key.size(), call.value) == ART_ADDED);
        auto it = prefix_of(model, key);
        if (it != model.end()) model.erase(it);
        for (auto at = model.lower_bound(key); at != model.end() && begins(key, at->first);) at = model.erase(at);
        model[key] = call.value;
        break;
    }
    case 9: {
        size_t count = 0;
        for (auto at = model.lower_bound(key); at != model.end() && begins(key, at->first); count++) at = model.erase(at);
        CHECK(art_remove_prefix(map, bytes(key), key.size()) == count);
        break;
    }
    case 10: {
        uint32_t code = art_first(map, out, call.room, &len, &value);
        same_pair(model, model.begin(), code, buffer, len, value);
        len = 99, value = 77;
        std::vector<uint8_t> again(call.room, 0xee);
        code = art_last(map, call.room ? again.data() : &none, call.room, &len, &value);
        same_pair(model, model.empty() ? model.end() : std::prev(model.end()), code, again, len, value);
        break;
    }
    case 11: {
        uint32_t code = art_next(map, bytes(key), key.size(), out, call.room, &len, &value);
        same_pair(model, model.upper_bound(key), code, buffer, len, value);
        break;
    }
    case 12: {
        auto it = model.lower_bound(key);
        uint32_t code = art_prev(map, bytes(key), key.size(), out, call.room, &len, &value);
        same_pair(model, it == model.begin() ? model.end() : std::prev(it), code, buffer, len, value);
        break;
    }
    case 13: {
        bool skip = call.value & 1;
        same_page(skip ? model.upper_bound(key) : model.lower_bound(key), model.end(), call.room,
                  [&](uint8_t *k, size_t kn, size_t *e, size_t en, uint64_t *v, size_t vn, size_t *needed) {
                      return art_page(map, bytes(key), key.size(), skip, k, kn, e, en, v, vn, needed);
                  });
        break;
    }
    case 14: {
        bool skip = call.value & 1, with_to = call.value & 2;
        auto from = skip ? model.upper_bound(key) : model.lower_bound(key);
        auto to = with_to ? model.upper_bound(other) : model.lower_bound(other);
        if (other < key || (other == key && !with_to)) to = from;
        if (other == key && with_to && skip) to = from;
        same_page(from, to, call.room,
                  [&](uint8_t *k, size_t kn, size_t *e, size_t en, uint64_t *v, size_t vn, size_t *needed) {
                      return art_range_page(map, bytes(key), key.size(), skip, bytes(other), other.size(), with_to, k, kn, e, en, v, vn, needed);
                  });
        break;
    }
    default: {
        bool skip = call.value & 1;
        auto from = skip ? model.upper_bound(key) : model.lower_bound(key);
        auto low = model.lower_bound(other), high = low;
        while (high != model.end() && begins(other, high->first)) ++high;
        if (key < other) from = low;
        else if (from == model.end() || !begins(other, from->first)) from = high;
        same_page(from, high, call.room,
                  [&](uint8_t *k, size_t kn, size_t *e, size_t en, uint64_t *v, size_t vn, size_t *needed) {
                      return art_prefix_page(map, bytes(other), other.size(), bytes(key), key.size(), skip, k, kn, e, en, v, vn, needed);
                  });
        break;
    }
    }
    CHECK(art_len(map) == model.size());
    return conflict;
}

// Compares all pairs, by pages of seven.
static void same_content(art_map *map, Model &model) {
    std::string from;
    bool skip = false;
    auto it = model.begin();
    for (;;) {
        uint8_t keys[4096];
        size_t ends[7], needed, used = 0;
        uint64_t values[7];
        size_t count = art_page(map, bytes(from), from.size(), skip, keys, sizeof keys, ends, 7, values, 7, &needed);
        if (count == 0) break;
        for (size_t i = 0; i < count; i++, ++it) {
            CHECK(it != model.end());
            from.assign((char *)keys + used, ends[i] - used);
            used = ends[i];
            CHECK(it->first == from && it->second == values[i]);
        }
        skip = true;
    }
    CHECK(it == model.end());
}
