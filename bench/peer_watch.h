/* The session watch in plain C, over a table whose parts the macros name: peer.c takes it in once for each table. */

static POST *NAMED(holder)(TABLE *t, uint32_t channel) {
    if (channel > 31 || !t->index[channel]) return NULL;
    return &t->posts[t->index[channel] - 1]; /* believed, as one's own index is: it is kept true */
}

static uint32_t NAMED(always)(const POST *p, uint64_t time) {
    uint32_t f = 0;
    const SESSION *s = &HEAD(p).session;
    if (SET(s->opened)) {
        uint64_t from = s->since;
        if (SET(STATUS(s).known) && STATUS(s).time > from) from = STATUS(s).time;
        if (since(time, from) > HEAD(p).limits.silence) f |= 1;
    }
    if (SET(CONTROLLER(p).known) && since(time, CONTROLLER(p).time) > 200) f |= 2;
    return f;
}

static uint32_t NAMED(limit)(const POST *p, uint32_t most, int shift) {
    return SET(PARAMETERS(p).known) ? told(PARAMETERS(p).kind, PARAMETERS(p).raw, most, shift) : most;
}

static uint32_t NAMED(found)(const POST *p, uint32_t role, uint32_t kind, uint64_t r) {
    const SESSION *s = &HEAD(p).session;
    uint32_t f = 0;
    if (role == STATUS_OF) {
        int64_t amps = s16(r >> 16);
        if (SET(s->opened) && (amps > (int64_t)NAMED(limit)(p, HEAD(p).limits.charge, 16) || amps < -(int64_t)NAMED(limit)(p, HEAD(p).limits.discharge, 32))) f |= 128;
        uint64_t g = function_of(CONTROL(s).kind, CONTROL(s).raw);
        if (SET(s->opened) && SET(CONTROL(s).known) && (g == 4 || g == 8) && poor(HEAD(p).limits.sensor, r)) f |= 256;
    } else if (role == OPENING) {
        if (SET(s->opened) && ((s->first ^ r) & 0xffff)) f |= 512;
    } else if (role == COMMAND) {
        uint64_t g = function_of(kind, r);
        bool newer = kind == ROKEMAIPU_DC_POWER_CONTROL;
        if (newer && (r >> 54 & 1) && !SET(s->opened)) f |= 4;
        if (powered(g) && !SET(s->opened)) f |= 8;
        if (powered(g) && SET(s->opened) && (!SET(STATUS(s).known) || (STATUS(s).raw >> 48 & 0xff) == 0)) f |= 16;
        if (newer && (r >> 55 & 1) && (g != 1 || (r & 0xffffffffffff))) f |= 32;
        if (newer && g && (r & 0xffff) > NAMED(limit)(p, HEAD(p).limits.voltage, 0)) f |= 64;
        if (powered(g) && SET(s->opened) && SET(STOP(s).known)) f |= 2048;
    } else if (role == FINISHED && !SET(s->opened)) {
        f |= 1024;
    }
    return f;
}

static uint32_t NAMED(refuse)(TABLE *t, uint32_t word) {
    if (t->refused < UINT32_MAX) t->refused++;
    return word;
}

/* The event, and each of its findings. */
static uint32_t NAMED(count)(POST *p, uint32_t f) {
    HEAD(p).counts[0]++;
    for (uint32_t left = f, k = 1; left; left >>= 1, k++) HEAD(p).counts[k] += left & 1;
    return f;
}

uint32_t NAMED(frame)(rokemaipu_table *memory, uint32_t channel, uint32_t time, uint32_t id, bool extended, const uint8_t *bytes, size_t n) {
    TABLE *t = (TABLE *)memory;
    POST *p = NAMED(holder)(t, channel);
    if (!p) return NAMED(refuse)(t, R(1));
    uint32_t later = time - (uint32_t)HEAD(p).time;
    if (SET(HEAD(p).heard) && later >> 31) return NAMED(refuse)(t, R(2));
    uint64_t r;
    uint32_t kind = judge_for(HEAD(p).limits.interface, id, extended, bytes, n, &r);
    if (kind >= ROKEMAIPU_REFUSED) return NAMED(refuse)(t, kind);
    if (HEAD(p).counts[0] == UINT32_MAX) return NAMED(refuse)(t, R(25));
    uint64_t now = SET(HEAD(p).heard) ? HEAD(p).time + later : time;
    uint32_t role = asked(kind), f = NAMED(always)(p, now) | NAMED(found)(p, role, kind, r);
    SLOT slot = {.known = true, .kind = kind, .time = now, .raw = r};
    SESSION *s = &HEAD(p).session;
    HEAD(p).heard = true, HEAD(p).time = now, p->latest[place_by(kind)] = slot;
    KEEP_IN_HEAD(p, role, slot);
    if (role == STATUS_OF && SET(s->opened)) STATUS(s) = slot;
    if (role == COMMAND && SET(s->opened)) CONTROL(s) = slot;
    if (role == STOPPING && SET(s->opened)) STOP(s) = slot;
    if (role == OPENING && !SET(s->opened)) *s = (SESSION){.opened = true, .since = now, .first = r};
    if (role == FINISHED) *s = (SESSION){0};
    return NAMED(count)(p, f);
}

uint32_t NAMED(tick)(rokemaipu_table *memory, uint32_t channel, uint32_t time) {
    TABLE *t = (TABLE *)memory;
    POST *p = NAMED(holder)(t, channel);
    if (!p) return NAMED(refuse)(t, R(1));
    uint32_t later = time - (uint32_t)HEAD(p).time;
    if (SET(HEAD(p).heard) && later >> 31) return NAMED(refuse)(t, R(2));
    if (HEAD(p).counts[0] == UINT32_MAX) return NAMED(refuse)(t, R(25));
    uint64_t now = SET(HEAD(p).heard) ? HEAD(p).time + later : time;
    HEAD(p).heard = true, HEAD(p).time = now;
    return NAMED(count)(p, NAMED(always)(p, now));
}
