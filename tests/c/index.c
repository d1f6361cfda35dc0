/* 02, Req 13: sixteen posts, and the index from channel to post beside them, from C: kept true by set-up, second set-up and release, the same as a search over
 * the posts; and one that is not true never leads to a post that does not hold the channel.
 * Prints a line for each part and 'ok', or says what was wrong and where, and exits 1. */
#include "tables.h"

static rokemaipu_table t;

static uint32_t set_up(uint32_t post, uint32_t channel) { return rokemaipu_set_up(&t, post, channel, 5000, 1000, 500, 500, ROKEMAIPU_MEASURING, post % 2); }

/* "found equal to a search over the posts", and so is what is answered of each channel */
static void is_true(int line) {
    for (uint32_t channel = 0; channel < ROKEMAIPU_CHANNELS; channel++) {
        uint32_t found = searched(&t, channel);
        is(line, "the index", t.index[channel], found);
        is(line, "the holder", rokemaipu_holder(&t, channel), found ? found - 1 : R(1));
    }
}

/* the index has these entries, as CHANNEL, POST, and 0 in all other places */
static void index_is(int line, const uint32_t *pairs, size_t n) {
    uint32_t want[ROKEMAIPU_CHANNELS] = {0};
    for (size_t i = 0; i < n; i += 2) want[pairs[i]] = pairs[i + 1] + 1;
    is(line, "the index, other", memcmp(t.index, want, sizeof want) != 0, 0);
    is_true(line);
}
#define INDEX(...) index_is(__LINE__, (const uint32_t[]){__VA_ARGS__}, sizeof (const uint32_t[]){__VA_ARGS__} / sizeof(uint32_t))

/* ---- "Refusal 9 now begins at 16" */

static void sixteen(void) {
    rokemaipu_table zero;
    memset(&t, 0, sizeof t), memset(&zero, 0, sizeof zero);
    is_true(__LINE__); /* zeroed memory is the empty table */
    for (uint32_t post = 0; post < 16; post++) {
        IS(set_up(post, 31 - 2 * post), 0);
        is_true(__LINE__);
    }
    rokemaipu_table was = t;
    static const uint32_t beyond[] = {16, 17, 31, 32, 255, 256, 0x80000000, UINT32_MAX};
    for (size_t i = 0; i < sizeof beyond / sizeof *beyond; i++) {
        uint32_t n[ROKEMAIPU_NUMBERS];
        IS(set_up(beyond[i], 0), R(9));
        IS(rokemaipu_release(&t, beyond[i]), R(9));
        IS(rokemaipu_look_up(&t, beyond[i], n, ROKEMAIPU_NUMBERS), R(9));
    }
    IS(memcmp(&was, &t, sizeof t), 0);
    for (uint32_t post = 0; post < 16; post++) { /* each hears what comes on its own channel, and nothing else */
        was = t;
        IS(rokemaipu_tick(&t, 31 - 2 * post, 100 + post), 0);
        IS(rokemaipu_tick(&t, 30 - 2 * post, 100), R(1));
        IS(t.posts[post].head.time, 100 + post);
        was.posts[post] = t.posts[post], was.refused = t.refused;
        IS(memcmp(&was, &t, sizeof t), 0);
    }
    IS(rokemaipu_start(&t), 0);
    IS(memcmp(&t, &zero, sizeof t), 0);
    puts("sixteen: posts 0 to 15 set up, each on a channel of its own, and 9 from 16 on; zeroed memory is the started table, its index with it");
}

/* ---- "kept true by set-up, second set-up and release" */

static void kept(void) {
    memset(&t, 0, sizeof t);
    IS(set_up(15, 4), 0);
    IS(set_up(0, 31), 0);
    INDEX(4, 15, 31, 0);
    IS(set_up(15, 4), 0); /* again on its own channel */
    INDEX(4, 15, 31, 0);
    IS(set_up(15, 9), 0); /* on another one: the old one is free */
    INDEX(9, 15, 31, 0);
    IS(rokemaipu_tick(&t, 4, 1), R(1));
    IS(rokemaipu_tick(&t, 9, 1), 0);
    IS(set_up(8, 4), 0); /* and another post may have it */
    INDEX(4, 8, 9, 15, 31, 0);
    IS(set_up(15, 4), R(11));
    IS(set_up(15, 32), R(10));
    IS(rokemaipu_set_up(&t, 15, 5, 0, 1000, 500, 500, 0, 0), R(12));
    IS(rokemaipu_release(&t, 7), R(14));
    INDEX(4, 8, 9, 15, 31, 0);
    IS(rokemaipu_release(&t, 15), 0);
    INDEX(4, 8, 31, 0);
    IS(rokemaipu_tick(&t, 9, 2), R(1));
    IS(set_up(0, 9), 0); /* a released post's channel */
    INDEX(4, 8, 9, 0);
    puts("kept: after a set-up, a second one on its own channel and on another, a release, and what is refused");
}

static void any_steps(void) {
    uint32_t seen[32] = {0}, again = 0, moved = 0;
    memset(&t, 0, sizeof t);
    for (int turn = 0; turn < 100000 && !bad; turn++) {
        uint32_t post = below(18), channel = below(34), answer, was[ROKEMAIPU_CHANNELS];
        bool set = post < 16 && t.posts[post].head.used, own = set && t.posts[post].head.channel == channel;
        memcpy(was, t.index, sizeof was);
        switch (below(5)) {
        case 0: answer = rokemaipu_release(&t, post); break;
        case 1: answer = rokemaipu_tick(&t, channel, (uint32_t)turn); break;
        default:
            answer = rokemaipu_set_up(&t, post, channel, 5000, 1000, 500, below(5) ? 500 : 99, 0, 0);
            again += !answer && own, moved += !answer && set && !own;
            break;
        }
        seen[rokemaipu_refusal(answer)]++;
        if (rokemaipu_refusal(answer)) IS(memcmp(was, t.index, sizeof was), 0);
        is_true(__LINE__);
    }
    IS(seen[0] && seen[1] && seen[9] && seen[10] && seen[11] && seen[12] && seen[14] && again && moved, true);
    puts("any steps: the index is what a search over the posts finds, after each of 100,000");
}

/* ---- an index of the caller's own making: "A frame or tick goes to the post that holds its channel" all the same */

/* a frame, a tick and a batch of both on a channel; answers how many were accepted */
static uint32_t heard(uint32_t channel, uint32_t time) {
    static const uint8_t session[2] = {2, 1};
    uint8_t records[3 * ROKEMAIPU_RECORD_BYTES];
    uint32_t answers[2] = {0}, n = rokemaipu_log_frame(time, channel, 0x6b001, true, session, 2, records, sizeof records);
    n += rokemaipu_log_tick(time, channel, records + n, sizeof records - n);
    uint32_t frame = rokemaipu_frame(&t, channel, time, 0x6b001, true, session, 2), tick = rokemaipu_tick(&t, channel, time);
    rokemaipu_table was = t;
    IS(rokemaipu_batch(&t, records, n, answers, 2), 2);
    rokemaipu_table left = t;
    t = was; /* the same as single calls, and leaves the same */
    IS(answers[0], rokemaipu_frame(&t, channel, time, 0x6b001, true, session, 2));
    IS(answers[1], rokemaipu_tick(&t, channel, time));
    IS(memcmp(&t, &left, sizeof t), 0);
    if (rokemaipu_refusal(frame) || rokemaipu_refusal(tick)) IS(rokemaipu_refusal(frame) == 1 && rokemaipu_refusal(tick) == 1, true);
    return !rokemaipu_refusal(frame) + !rokemaipu_refusal(tick) + !rokemaipu_refusal(answers[0]) + !rokemaipu_refusal(answers[1]);
}

static void lying(void) {
    /* numbers above the posts come round to one, by their low bits: 20 is 4, post 3's, which holds channel 3; 18 is 2, and post 1 holds none */
    static const uint32_t odd[] = {17, 18, 20, 32, 33, 36, 255, 256, 260, 65540, 0x80000000, 0x80000004, UINT32_MAX - 1, UINT32_MAX};
    uint32_t believed = 0;
    memset(&t, 0, sizeof t);
    for (uint32_t post = 0; post < 16; post += 3) IS(rokemaipu_set_up(&t, post, post, 5000, 1000, 500, 500, 0, ROKEMAIPU_NEWER), 0); /* 0, 3, .., 15 */
    const rokemaipu_table made = t;
    for (uint32_t channel = 0; channel < ROKEMAIPU_CHANNELS; channel++)
        for (uint32_t k = 0; k < 17 + sizeof odd / sizeof *odd && !bad; k++) {
            uint32_t said = k < 17 ? k : odd[k - 17];
            t = made, t.index[channel] = said;
            rokemaipu_table was = t;
            bool held = holds(&t, named(&t, channel), channel);
            IS(held, channel % 3 == 0 && channel < 16 && said % 16 == (channel + 1) % 16); /* what names no post comes round to one */
            IS(rokemaipu_holder(&t, channel), held ? channel : R(1));
            IS(heard(channel, 7), held ? 4 : 0);
            believed += held;
            if (held) was.posts[channel] = t.posts[channel];
            else was.refused += 4;
            IS(memcmp(&was, &t, sizeof t), 0); /* no other post was touched, and nothing reads behind the sixteen */
        }
    IS(believed, 6 + 1 + 10); /* what names them, 0 for the last, and ten of the odd ones */
    puts("lying: whatever number stands in the index, no post hears what comes on a channel that it does not hold");
}

int main(void) {
    sixteen();
    kept();
    any_steps();
    lying();
    puts(bad ? "BAD" : "ok");
    return bad;
}
