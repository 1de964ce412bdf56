// The REFUSED_GROWTHth call of malloc or realloc returns NULL, and writes so to the descriptor REFUSED_TELLS; so do REFUSED_MANY
// from it on, if that is given. It has no headers, so that any compiler builds it.
typedef __SIZE_TYPE__ size;
char *getenv(const char *);
long atol(const char *);
long write(int, const void *, size);
void *dlsym(void *, const char *);
static long calls;
static int is_refused(void) {
    const char *nth = getenv("REFUSED_GROWTH");
    long call = nth ? __atomic_add_fetch(&calls, 1, __ATOMIC_SEQ_CST) : 0;
    if (!nth || call < atol(nth)) return 0;
    const char *many = getenv("REFUSED_MANY");
    if (call > atol(nth)) return many && call - atol(nth) < atol(many);
    return write(atol(getenv("REFUSED_TELLS")), "refused", 7) == 7;
}
static void *next(const char *name) { return dlsym((void *)-1L, name); }
void *malloc(size many) {
    static void *(*call)(size);
    if (!call) call = (void *(*)(size))next("malloc");
    return is_refused() ? 0 : call(many);
}
void *realloc(void *old, size many) {
    static void *(*call)(void *, size);
    if (!call) call = (void *(*)(void *, size))next("realloc");
    return is_refused() ? 0 : call(old, many);
}
