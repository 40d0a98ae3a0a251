/* The library behind a pipe: an x86-64 program that reads calls from standard input, makes them, and writes what came of each.
 *
 * Every call is made on a stack of 128 KiB between a forbidden page and the end; how much of it was ever used can be asked. Lent bytes
 * stand between guards. Out-parameters hold garbage before the call. A request and an answer are the structs below, each followed by the
 * bytes of up to five buffers. */
#include "flaskbloom.h"

/* Of the C library, what is used here. */
long read(int fd, void *to, size_t len);
long write(int fd, const void *from, size_t len);
void *malloc(size_t len);
void free(void *p);
void *memset(void *to, int byte, size_t len);
void *memcpy(void *to, const void *from, size_t len);
void *mmap(void *at, size_t len, int allowed, int flags, int fd, long offset);
int mprotect(void *at, size_t len, int allowed);
void _exit(int status);
typedef unsigned long pthread_t;
typedef union { char bytes[64]; long align; } pthread_attr_t; /* glibc's has 56 */
int pthread_attr_init(pthread_attr_t *attr);
int pthread_attr_setstack(pthread_attr_t *attr, void *stack, size_t len);
int pthread_create(pthread_t *thread, const pthread_attr_t *attr, void *(*run)(void *), void *with);
int pthread_join(pthread_t thread, void **result);

enum { STACK = 128 * 1024, PAGE = 4096, GUARDS = 64, GUARD = 0xa7, BUFFERS = 5, POINTS = 19 };

enum call {
    NORMALISE, STAR, BASE, SUBDIVIDE, SUBDIVIDE_ALL, NEIGHBOURS, FACES,
    WRITE_FULL, WRITE_REDUCED, READ_FULL, READ_REDUCED, CENSUS, NEIGHBOURS_ALL, FACES_ALL, COUNTS, FINDINGS, BRING_TO_SIX,
    REFINE_DISC, REFINE_LINE, WRITE_OFF, WRITE_OBJ, SALVAGE, VERTEX, VERTICES, STACK_USED
};

struct request {
    uint32_t call;
    int32_t a, b;
    uint8_t m, d, k, n; /* of an outline's passes: their count, the level */
    uint64_t len[BUFFERS];
    double outline[3];
};

struct answer {
    uint32_t number;      /* 0..255; 256 where a guard was broken */
    int32_t points[POINTS]; /* the first of them also the numbers of a table counted, and a record */
    uint64_t value, second; /* of findings: the line, the bytes written; of salvage: the bytes of both outputs */
};

static uint8_t *stack;

static void take(void *to, size_t len) {
    uint8_t *at = to;
    while (len > 0) {
        long got = read(0, at, len);
        if (got <= 0) _exit(got == 0 ? 0 : 1);
        at += got;
        len -= (size_t)got;
    }
}

static void give(const void *from, size_t len) {
    const uint8_t *at = from;
    while (len > 0) {
        long put = write(1, at, len);
        if (put <= 0) _exit(1);
        at += put;
        len -= (size_t)put;
    }
}

/* Where a buffer of this length begins in its block: odd addresses too, but for numbers. */
static size_t start(const struct request *r, int i) {
    int many = r->call == NEIGHBOURS_ALL || r->call == FACES_ALL;
    int lists = r->call == VERTEX || r->call == VERTICES;
    int numbers = lists || (i == 1 && (r->call == BASE || r->call == SUBDIVIDE_ALL || many)) || (i == 2 && many);
    return GUARDS + (numbers ? 0 : r->len[i] % 2 + r->len[i] / 12 % 3);
}

static int guarded(const uint8_t *block, size_t from, size_t len) {
    for (size_t i = 0; i < from; i++)
        if (block[i] != GUARD) return 0;
    for (size_t i = 0; i < GUARDS; i++)
        if (block[from + len + i] != GUARD) return 0;
    return 1;
}

static uint64_t stack_used(void) {
    size_t untouched = 0;
    while (untouched < STACK && stack[untouched] == GUARD) untouched++;
    return STACK - untouched;
}

static uint8_t call(const struct request *r, uint8_t **p, int32_t *points, uint64_t *value, uint64_t *second) {
    const uint64_t *n = r->len;
    switch (r->call) {
    case NORMALISE: return fb_normalise(r->a, r->b, r->m, points);
    case STAR: return fb_star(r->a, r->b, r->m, r->d, r->k, r->n, points);
    case BASE: return fb_base(p[0], n[0], (const int32_t *)p[1], n[1] / 4, value);
    case SUBDIVIDE: return fb_subdivide(p[0], n[0], r->a, r->b, r->m);
    case SUBDIVIDE_ALL: return fb_subdivide_all(p[0], n[0], (const int32_t *)p[1], n[1] / 4, value);
    case NEIGHBOURS: return fb_neighbours(p[0], n[0], r->a, r->b, r->m, points);
    case FACES: return fb_faces(p[0], n[0], r->a, r->b, r->m, points);
    case WRITE_FULL: return fb_write_full(p[0], n[0], p[1], n[1], value);
    case WRITE_REDUCED: return fb_write_reduced(p[0], n[0], p[1], n[1], value);
    case WRITE_OFF: return fb_write_off(p[0], n[0], p[1], n[1], value);
    case WRITE_OBJ: return fb_write_obj(p[0], n[0], p[1], n[1], value);
    case READ_FULL: return fb_read_full(p[0], n[0], p[1], n[1], p[2], n[2], value);
    case READ_REDUCED: return fb_read_reduced(p[0], n[0], p[1], n[1], p[2], n[2], value);
    case CENSUS: return fb_census(p[0], n[0], p[1], n[1], p[2], n[2], p[3], n[3], value);
    case NEIGHBOURS_ALL: return fb_neighbours_all(p[0], n[0], (const int32_t *)p[1], n[1] / 4, (int32_t *)p[2], n[2] / 4);
    case FACES_ALL: return fb_faces_all(p[0], n[0], (const int32_t *)p[1], n[1] / 4, (int32_t *)p[2], n[2] / 4);
    case COUNTS: return fb_counts(p[0], n[0], (uint32_t *)points);
    case FINDINGS: return fb_findings(p[0], n[0], p[1], n[1], p[2], n[2], value, second);
    case BRING_TO_SIX: return fb_bring_to_six(p[0], n[0], p[1], n[1], r->a, r->b, r->m);
    case REFINE_DISC: return fb_refine_disc(p[0], n[0], p[1], n[1], r->outline[0], r->outline[1], r->outline[2], r->m, r->d, value);
    case REFINE_LINE: return fb_refine_line(p[0], n[0], p[1], n[1], r->outline[0], r->outline[1], r->outline[2], r->m, r->d, value);
    case SALVAGE: return fb_salvage(p[0], n[0], p[1], n[1], p[2], n[2], p[3], n[3], p[4], n[4], value, second);
    case VERTEX: return fb_vertex((const int32_t *)p[0], n[0] / 4, (const int32_t *)p[1], n[1] / 4, r->a, r->b, r->m, points);
    case VERTICES:
        return fb_vertices((const int32_t *)p[0], n[0] / 4, (const int32_t *)p[1], n[1] / 4, (const int32_t *)p[2], n[2] / 4,
                           (int32_t *)p[3], n[3] / 4);
    case STACK_USED: *value = stack_used(); return 0;
    default: _exit(2);
    }
    return 0;
}

static void serve(const struct request *r) {
    uint8_t *block[BUFFERS], *p[BUFFERS];
    size_t total = sizeof(struct answer);
    for (int i = 0; i < BUFFERS; i++) {
        size_t from = start(r, i);
        block[i] = malloc(from + r->len[i] + GUARDS);
        memset(block[i], GUARD, from + r->len[i] + GUARDS);
        p[i] = block[i] + from;
        take(p[i], r->len[i]);
        total += r->len[i];
    }
    int32_t points[GUARDS + POINTS + GUARDS];
    memset(points, GUARD, sizeof points);
    uint64_t value = ~0ul, second = ~0ul;
    struct answer *out = malloc(total);
    out->number = call(r, p, points + GUARDS, &value, &second);
    out->value = value;
    out->second = second;
    memcpy(out->points, points + GUARDS, sizeof out->points);
    int whole = guarded((uint8_t *)points, GUARDS * 4, POINTS * 4);
    uint8_t *at = (uint8_t *)(out + 1);
    for (int i = 0; i < BUFFERS; i++) {
        whole &= guarded(block[i], start(r, i), r->len[i]);
        memcpy(at, p[i], r->len[i]);
        at += r->len[i];
        free(block[i]);
    }
    if (!whole) out->number = 256;
    give(out, total);
    free(out);
}

static void *serve_all(void *none) {
    for (;;) {
        struct request r;
        take(&r, sizeof r);
        serve(&r);
    }
    return none;
}

int main(void) {
    enum { NONE = 0, READ_WRITE = 3, PRIVATE_ANONYMOUS = 0x22 };
    uint8_t *room = mmap((void *)0, PAGE + STACK, READ_WRITE, PRIVATE_ANONYMOUS, -1, 0);
    mprotect(room, PAGE, NONE);
    stack = room + PAGE;
    memset(stack, GUARD, STACK);
    pthread_attr_t attr;
    pthread_t thread;
    pthread_attr_init(&attr);
    if (pthread_attr_setstack(&attr, stack, STACK) != 0) return 3;
    if (pthread_create(&thread, &attr, serve_all, (void *)0) != 0) return 4;
    pthread_join(thread, (void **)0);
    return 0;
}
