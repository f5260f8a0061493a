/* Refuses each request for memory of a program from the one of number REFUSE_FROM on. When the program ends,
   the file REFUSE_COUNT gets the number of the requests that were refused. It is loaded by LD_PRELOAD, and
   includes no header, so that the toolchain's own compiler builds it. */
typedef unsigned long size_t;

void *__libc_malloc(size_t size);
void *__libc_realloc(void *old, size_t size);
char *getenv(const char *name);
unsigned long strtoul(const char *text, char **end, int base);
int creat(const char *name, unsigned int mode);
long write(int file, const void *bytes, size_t count);
int *__errno_location(void);

static unsigned long made, refused;

static int is_refused(void) {
    const char *from = getenv("REFUSE_FROM");
    made += 1;
    if (from == 0 || made < strtoul(from, 0, 10))
        return 0;
    refused += 1;
    *__errno_location() = 12; /* ENOMEM */
    return 1;
}

void *malloc(size_t size) { return is_refused() ? 0 : __libc_malloc(size); }

void *realloc(void *old, size_t size) { return is_refused() ? 0 : __libc_realloc(old, size); }

__attribute__((destructor)) static void tell(void) {
    const char *name = getenv("REFUSE_COUNT");
    char digits[20];
    int at = sizeof digits;
    unsigned long left = refused;
    do {
        digits[--at] = (char)('0' + left % 10);
        left /= 10;
    } while (left > 0);
    if (name != 0)
        (void)!write(creat(name, 0600), digits + at, sizeof digits - at);
}
