/* An ordered map of byte strings to 64-bit numbers, on an adaptive radix tree. The library is
   written in Rattle, and each function is proved to meet its contract.

   No stored key is a prefix of another. So at most one stored key is a prefix of a query, and
   art_prefix_get finds it. Pairs are in the order of the keys' bytes, as memcmp and then the
   length order them.

   What a caller owes, which nothing checks:
   - A map is a pointer that art_new wrote, and is used until art_free. One call at a time uses
     it. Calls of several threads on one map are ordered by a lock, or by the start and the join
     of a thread. Calls on different maps may run at once.
   - A byte string is a pointer and a length. The pointer is not NULL, even if the length is 0.
     No other code writes the bytes during the call.
   - A pointer to a result is aligned, and leads to an initialized value. What a call writes to
     overlaps nothing else that the call is given.
   - malloc, realloc and free are those of one allocator. No call is made from a signal handler,
     or in the child of a fork of a process with threads.

   Costs are in these terms. A visit is a read of one inner node or of one pair. A descent is a path
   from the root to a pair, with at most one inner node for each byte of the key. An insertion makes
   a descent, and sometimes a second one. A new key also allocates for one pair, and if it comes
   between the pairs of a full row of 64, 32 pairs move, with at most one descent for each. An
   opening makes at most 2 (n + 2) (m + 2) visits, if the given keys have at most n bytes and the
   stored keys at most m. Only art_new, art_insert and art_overwrite report that memory ran out, and
   no other call needs memory. */
#ifndef ART_MAP_H
#define ART_MAP_H

#include <stdbool.h>
#include <stddef.h>
#include <stdint.h>

#ifdef __cplusplus
extern "C" {
#endif

typedef struct art_map art_map;

/* The results of art_new, art_insert and art_overwrite. */
enum {
    ART_ADDED = 0,     /* the key was new */
    ART_REPLACED = 1,  /* the key was stored, and has the new value now */
    ART_CONFLICT = 2,  /* the key is a proper prefix of a stored key, or a stored key is one of it */
    ART_NO_MEMORY = 3  /* memory ran out */
};

/* The results of art_first, art_last, art_next and art_prev. */
enum {
    ART_FOUND = 0,     /* the pair was copied out */
    ART_NONE = 1,      /* there is no such pair, and nothing was written */
    ART_TOO_SMALL = 2  /* the key is longer than the buffer; only *len was written */
};

/* Makes a map with no pairs, and writes its pointer to *out. Returns ART_ADDED, or
   ART_NO_MEMORY, and then *out is unchanged. Cost: two allocations. */
uint32_t art_new(art_map **out);

/* Frees the map and all that it holds. Cost: frees the key of each pair. */
void art_free(art_map *map);

/* Returns the number of pairs. Cost: reads a count. */
size_t art_len(art_map *map);

/* Removes all pairs, and keeps the map's memory. Cost: frees the key of each pair. */
void art_clear(art_map *map);

/* Stores the value under the key. Returns ART_ADDED if the key was new; or ART_REPLACED, and then
   *old is the value that it had; or ART_CONFLICT, exactly if the key is a proper prefix of a stored
   key or a stored key is one of it; or ART_NO_MEMORY. After the last two the map is unchanged. *old
   is unchanged unless the result is ART_REPLACED. Cost: an insertion. The key is copied before it
   is looked up, so a stored key may need memory too. */
uint32_t art_insert(art_map *map, const uint8_t *key, size_t len, uint64_t value, uint64_t *old);

/* Stores the value under the key, in place of every stored key of which it is a prefix, and of a
   stored key that is a prefix of it. Returns ART_ADDED, or ART_NO_MEMORY, and then the map is
   unchanged. Cost: a copy of the key, a descent, and one for each replaced pair but one. If none is
   replaced, an insertion. */
uint32_t art_overwrite(art_map *map, const uint8_t *key, size_t len, uint64_t value);

/* Returns true if the key is stored, and writes its value. If it is not, nothing is written.
   Cost: at most len + 1 visits. */
bool art_get(art_map *map, const uint8_t *key, size_t len, uint64_t *value);

/* Returns true if a stored key is a prefix of the query. It is the first *found_len bytes of the
   query, and *value is its value. If there is none, nothing is written. Cost: at most len + 1
   visits. */
bool art_prefix_get(art_map *map, const uint8_t *query, size_t len, size_t *found_len,
                    uint64_t *value);

/* Removes the key. Returns true if it was stored, and writes the value that it had. If it was not,
   nothing is written. Cost: a descent. */
bool art_remove(art_map *map, const uint8_t *key, size_t len, uint64_t *value);

/* Removes the pairs whose keys begin with the prefix, and returns their number. Cost: a few
   descents, and frees the key of each removed pair. */
size_t art_remove_prefix(art_map *map, const uint8_t *prefix, size_t len);

/* Copies out the first pair, or the last one. The key goes to key[0 .. *len). Cost: one visit, and
   a copy of the key. */
uint32_t art_first(art_map *map, uint8_t *key, size_t room, size_t *len, uint64_t *value);
uint32_t art_last(art_map *map, uint8_t *key, size_t room, size_t *len, uint64_t *value);

/* Copies out the first pair whose key is greater than `after`, or the last one whose key is less
   than `before`. These need not be stored. They may not lie in the buffer `key`: a loop swaps
   two buffers. Cost: an opening, one visit, and a copy of the key. */
uint32_t art_next(art_map *map, const uint8_t *after, size_t after_len, uint8_t *key, size_t room,
                  size_t *len, uint64_t *value);
uint32_t art_prev(art_map *map, const uint8_t *before, size_t before_len, uint8_t *key, size_t room,
                  size_t *len, uint64_t *value);

/* A page: the pairs from the key `from` on, in order, as many as there is room for. Returns their
   number. If `skip` is true, a pair with the key `from` itself is left out: for the first page pass
   false, any pointer that is not NULL, and the length 0, and then true and the last key of the page
   before. The rooms of `ends` and `values` are at least 1.

   The keys' bytes lie one after another in `keys`, keys[0 .. ends[0]) first, then keys[ends[0]
   .. ends[1]). The rest of each buffer is unchanged. *needed becomes the length of the key after
   the page, or 0 if no pair follows. So the last page is the one after which *needed is 0. If
   the result is 0 and *needed is not, the buffer `keys` has too little room for one key.

   Cost: an opening, one visit for each pair of the page and for the next one, and a copy of each
   key. */
size_t art_page(art_map *map, const uint8_t *from, size_t from_len, bool skip, uint8_t *keys,
                size_t key_room, size_t *ends, size_t end_room, uint64_t *values, size_t value_room,
                size_t *needed);

/* The same for the keys up to `to`. If `with_to` is false, a pair with the key `to` is left out.
   Cost: like art_page. */
size_t art_range_page(art_map *map, const uint8_t *from, size_t from_len, bool skip,
                      const uint8_t *to, size_t to_len, bool with_to, uint8_t *keys, size_t key_room,
                      size_t *ends, size_t end_room, uint64_t *values, size_t value_room,
                      size_t *needed);

/* The same for the keys that begin with the prefix. Cost: like art_page, with two openings. */
size_t art_prefix_page(art_map *map, const uint8_t *prefix, size_t prefix_len, const uint8_t *from,
                       size_t from_len, bool skip, uint8_t *keys, size_t key_room, size_t *ends,
                       size_t end_room, uint64_t *values, size_t value_room, size_t *needed);

#ifdef __cplusplus
}
#endif

#endif
