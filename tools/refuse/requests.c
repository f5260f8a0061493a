/* Refuses each request for memory of a program from one on, but those that are made while refusals are paused,
   which are not counted either. For programs that `rt try` builds: their requests go to the sanitizer's own
   malloc, which calls these hooks, and which returns null while its limit of memory counts as exceeded. */
void exceed_limit(_Bool is_exceeded) __asm__("_ZN11__sanitizer19SetRssLimitExceededEb");

static unsigned long first, made, live, pauses;

static void set_limit(void) { exceed_limit(first != 0 && pauses == 0 && made + 1 >= first); }

void __sanitizer_malloc_hook(const volatile void *at, unsigned long size) {
    (void)at, (void)size;
    live += 1;
    if (first != 0 && pauses == 0)
        made += 1;
    set_limit();
}

void __sanitizer_free_hook(const volatile void *at) {
    if (at != 0)
        live -= 1;
}

/* Refuses each request from the one of this number on, the next one being the first; 0 ends that. */
void requests_refuse_from(unsigned long number) {
    first = number;
    made = pauses = 0;
    set_limit();
}

void requests_pause(void) {
    pauses += 1;
    set_limit();
}

void requests_resume(void) {
    pauses -= 1;
    set_limit();
}

/* How many requests there was memory for since refusals began. */
unsigned long requests_made(void) { return made; }

/* How many blocks of memory the program has. */
unsigned long requests_live(void) { return live; }
