/* Tables that the functions did not make, of random numbers. */
#ifndef TABLES_H
#define TABLES_H
#include "fence.h"
#include "kinds.h"

/* any number may stand there; all but 1 count as measuring */
static uint32_t some_sensor(void) { return below(4) ? below(3) : (uint32_t)next(); }

/* any number may stand there too; all but 1 count as the newer one */
static uint32_t some_interface(void) { return below(4) ? below(2) : (uint32_t)next(); }

/* often a kind, and any number */
static uint32_t some_kind(void) { return below(4) ? below(ROKEMAIPU_KINDS + 3) : (uint32_t)next(); }

/* of flags all but 1 count as 0 */
static uint32_t some_flag(void) { return below(8) ? below(2) : (uint32_t)next(); }

static uint64_t some_time(void) { return below(8) ? (uint32_t)next() : next(); }

/* often the largest, and just below it */
static uint32_t some_count(void) { return below(3) ? below(1000) : UINT32_MAX - below(2); }

/* "an age stops growing at 4,294,967,295" */
static inline uint32_t age_of(uint64_t now, uint64_t from) { return now <= from ? 0 : now - from < UINT32_MAX ? (uint32_t)(now - from) : UINT32_MAX; }

static void random_slot(rokemaipu_slot *s) { s->known = some_flag(), s->kind = some_kind(), s->time = some_time(), s->raw = next(); }

static void random_head(rokemaipu_head *h) {
    h->used = some_flag(), h->channel = below(40), h->heard = some_flag(), h->time = some_time();
    h->limits.voltage = (uint32_t)next(), h->limits.charge = (uint32_t)next(), h->limits.discharge = (uint32_t)next(), h->limits.silence = (uint32_t)next();
    h->limits.sensor = some_sensor(), h->limits.interface = some_interface();
    random_slot(&h->controller);
    random_slot(&h->parameters);
    h->session.opened = some_flag(), h->session.since = some_time(), h->session.first = next();
    for (int k = 0; k < ROKEMAIPU_KEPT; k++) random_slot(&h->session.kept[k]);
    for (int k = 0; k < ROKEMAIPU_COUNTS; k++) h->counts[k] = some_count();
}

static inline bool holds(const rokemaipu_table *t, uint32_t post, uint32_t channel) {
    const rokemaipu_head *h = &t->posts[post].head;
    return h->used == 1 && h->channel == channel;
}

/* what a search over the posts finds, as the index says it: 0, or one more than the first post that holds the channel */
static inline uint32_t searched(const rokemaipu_table *t, uint32_t channel) {
    for (uint32_t post = 0; post < ROKEMAIPU_POSTS; post++)
        if (holds(t, post, channel)) return post + 1;
    return 0;
}

/* the post that the index names, and some post where it names none, since the numbers come round; whether it holds the channel is asked of it */
static inline uint32_t named(const rokemaipu_table *t, uint32_t channel) { return (t->index[channel] - 1) % ROKEMAIPU_POSTS; }

/* mostly true, and any number may stand there */
static void random_index(rokemaipu_table *t) {
    for (uint32_t channel = 0; channel < ROKEMAIPU_CHANNELS; channel++)
        t->index[channel] = below(3) ? searched(t, channel) : below(8) ? below(ROKEMAIPU_POSTS + 3) : (uint32_t)next();
}

static inline void random_table(rokemaipu_table *t) {
    for (int i = 0; i < ROKEMAIPU_POSTS; i++) {
        random_head(&t->posts[i].head);
        for (uint32_t k = 0; k < ROKEMAIPU_PLACES; k++) {
            random_slot(&t->posts[i].latest[k]);
            if (below(2)) t->posts[i].latest[k].kind = kind_at(k, below(2)); /* a kind that has the place */
        }
    }
    random_index(t);
    t->refused = some_count();
}

/* A table that ends at a fence, in pages of its own: those may be made to be only read. */
typedef struct { rokemaipu_table *table; uint8_t *pages; size_t size; } fenced_table;

static inline fenced_table table_alone(void) {
    size_t page = (size_t)sysconf(_SC_PAGESIZE), size = (sizeof(rokemaipu_table) + page - 1) / page * page;
    uint8_t *end = fenced(size) + size;
    return (fenced_table){(rokemaipu_table *)(end - sizeof(rokemaipu_table)), end - size, size};
}

static inline void only_read(fenced_table f, bool only) {
    if (mprotect(f.pages, f.size, only ? PROT_READ : PROT_READ | PROT_WRITE)) exit(1);
}

#endif
