/* A table of routes: the route of a path is the stored key that is a prefix of it.
   cc -O2 routes.c $(pkg-config --cflags --libs art_map) -o routes */
#include <art_map.h>
#include <stdio.h>
#include <string.h>

static const uint8_t *bytes(const char *text) { return (const uint8_t *)text; }

int main(void) {
    const char *routes[] = {"/api/", "/static/", "/login", "/api/v1/"};
    const char *handlers[] = {"api", "files", "login", "api, version 1"};
    const char *paths[] = {"/api/users", "/static/logo.png", "/", "/login"};
    art_map *map;
    uint64_t value = 0;
    size_t len = 0;
    if (art_new(&map) != ART_ADDED) return 1;
    for (uint64_t i = 0; i < 4; i++) {
        uint32_t code = art_insert(map, bytes(routes[i]), strlen(routes[i]), i, &value);
        if (code == ART_CONFLICT) printf("%s: one route would hide the other\n", routes[i]);
        if (code == ART_NO_MEMORY) return 1;
    }
    for (int i = 0; i < 4; i++) {
        if (art_prefix_get(map, bytes(paths[i]), strlen(paths[i]), &len, &value))
            printf("%s -> %s (%.*s)\n", paths[i], handlers[value], (int)len, paths[i]);
        else
            printf("%s -> none\n", paths[i]);
    }
    art_free(map);
    return 0;
}
