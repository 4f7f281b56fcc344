// Tries the library on images, on all their beginnings, on all that differ from them in one bit, and on many that are
// changed at random, each behind and before memory that nobody may read; writes the images again, and merges changes.
//
// usage: hostile COUNT IMAGE..
//
// The last line is a sum of all answers: two builds of the library have the same. An answer that says what can't be, or of
// an image something else than a search through all its rows, ends the run with status 1.
#include <stdio.h>
#include <stdlib.h>
#include <string.h>
#include <sys/mman.h>
#include <unistd.h>

#include "nifazombi.h"

enum { MOST = 1 << 16, MOST_MERGED = 1 << 18, ASKED = 8 };

static uint8_t *merged_end;

static uint64_t sum = 14695981039346656037u, state = 88172645463325252u;

static void add(uint64_t answer) { sum = (sum ^ answer) * 1099511628211u; }

static uint64_t draw(void) {
    state ^= state << 13;
    state ^= state >> 7;
    return state ^= state << 17;
}

static void need(bool holds, const char *what) {
    if (!holds) {
        fprintf(stderr, "hostile: %s\n", what);
        exit(1);
    }
}

// Of an image: the last row that holds an address, by its index and one more. Rows rise, so it is the longest.
static size_t longest4(const uint8_t *image, size_t len, uint32_t address) {
    nifazombi_ipv4_row row;
    size_t found = 0;
    for (size_t at = 0; nifazombi_ipv4_row_at(image, len, at, &row); at++) {
        uint64_t size = 1ull << (32 - row.bits);
        if (address >= row.first && address - row.first < size) found = at + 1;
    }
    return found;
}

// Whether a network comes before another one, is it, or comes behind it: a number below 0, 0, or one above.
static int order4(const nifazombi_ipv4_row *one, const nifazombi_ipv4_row *other) {
    if (one->first != other->first) return one->first < other->first ? -1 : 1;
    return (one->bits > other->bits) - (one->bits < other->bits);
}

#define CALL(name) nifazombi_ipv4_##name
#define OWN(name) name##4
#define BITS 32
#include "hostile_merges.h"
#undef CALL
#undef OWN
#undef BITS

static void ask4(const uint8_t *image, size_t len, bool is_searched) {
    size_t at = 0, count = nifazombi_ipv4_len(image, len);
    uint32_t wrong = nifazombi_ipv4_check(image, len, &at), asked[ASKED], found[ASKED] = {0};
    add(wrong), add(at), add(count);
    nifazombi_ipv4_row row = {0};
    for (int i = 0; i < ASKED; i++) {
        bool is_near = i % 2 && count && nifazombi_ipv4_row_at(image, len, draw() % count, &row);
        asked[i] = is_near ? row.first + (uint32_t)(draw() % 3) - 1 : (uint32_t)draw();
        size_t longest = nifazombi_ipv4_longest_match(image, len, asked[i]), up = longest;
        add(longest);
        need(!longest || nifazombi_ipv4_row_at(image, len, longest - 1, &row), "a look-up found no row");
        need(wrong || !is_searched || longest == longest4(image, len, asked[i]), "the longest row isn't found");
        for (int k = 0; up && k < 200; k++) {
            size_t next = nifazombi_ipv4_above(image, len, up - 1);
            need(next < up, "a walk upward doesn't go up");
            need(wrong || (nifazombi_ipv4_row_at(image, len, up - 1, &row) && row.link == next), "a row has another link");
            up = next;
        }
        size_t own = nifazombi_ipv4_get(image, len, row.first, row.bits);
        size_t around = nifazombi_ipv4_longest_around(image, len, row.first, row.bits);
        need(own <= count && around <= count, "a row of a network, or around it, that isn't there");
        need(wrong || !own || around == own, "another network is longest around a row's own");
        need(wrong || nifazombi_ipv4_longest_around(image, len, asked[i], 32) == longest, "an address alone has another row around");
        add(own), add(around);
        nifazombi_span span;
        nifazombi_ipv4_below(image, len, row.first, row.bits, &span);
        need(span.first + span.count <= count, "rows that aren't there");
        add(span.first), add(span.count);
    }
    if (is_searched) merge4(image, len, !wrong);
    need(!nifazombi_ipv4_above(image, len, SIZE_MAX), "a row is around one past the end");
    need(wrong || !nifazombi_ipv4_above(image, len, count), "a row is around the one behind the last");
    size_t looked = nifazombi_ipv4_longest_matches(image, len, asked, ASKED, found, ASKED);
    for (size_t i = 0; i < looked; i++) {
        need(found[i] <= count, "an index of many that isn't there");
        need(wrong || found[i] == nifazombi_ipv4_longest_match(image, len, asked[i]), "many aren't one by one");
    }
    add(looked);
    uint32_t again[ASKED];
    uint32_t values[ASKED];
    need(looked == nifazombi_ipv4_longest_values(image, len, asked, ASKED, again, ASKED, values, ASKED), "other counts of many");
    for (size_t i = 0; i < looked; i++) {
        bool is_found = found[i] && nifazombi_ipv4_row_at(image, len, found[i] - 1, &row);
        need(again[i] == found[i] && values[i] == (is_found ? row.value : 0), "another value of many");
    }
}

static size_t longest6(const uint8_t *image, size_t len, const uint8_t *address) {
    nifazombi_ipv6_row row;
    size_t found = 0;
    for (size_t at = 0; nifazombi_ipv6_row_at(image, len, at, &row); at++) {
        uint32_t whole = row.bits / 8, more = row.bits % 8;
        const uint8_t *a = row.first, *b = address;
        if (memcmp(a, b, whole) == 0 && (more == 0 || (a[whole] ^ b[whole]) >> (8 - more) == 0)) found = at + 1;
    }
    return found;
}

// Whether a network comes before another one, is it, or comes behind it: a number below 0, 0, or one above.
static int order6(const nifazombi_ipv6_row *one, const nifazombi_ipv6_row *other) {
    int order = memcmp(one->first, other->first, sizeof one->first);
    return order ? order : (one->bits > other->bits) - (one->bits < other->bits);
}

#define CALL(name) nifazombi_ipv6_##name
#define OWN(name) name##6
#define BITS 128
#include "hostile_merges.h"
#undef CALL
#undef OWN
#undef BITS

static void ask6(const uint8_t *image, size_t len, bool is_searched) {
    size_t at = 0, count = nifazombi_ipv6_len(image, len);
    uint32_t wrong = nifazombi_ipv6_check(image, len, &at), found[ASKED] = {0};
    uint8_t asked[ASKED][16];
    add(wrong), add(at), add(count);
    nifazombi_ipv6_row row = {0};
    for (int i = 0; i < ASKED; i++) {
        bool is_near = i % 2 && count && nifazombi_ipv6_row_at(image, len, draw() % count, &row);
        for (int k = 0; k < 16; k++) asked[i][k] = is_near ? row.first[k] : (uint8_t)draw();
        asked[i][15] ^= (uint8_t)(draw() % 2);
        size_t longest = nifazombi_ipv6_longest_match(image, len, asked[i]), up = longest;
        add(longest);
        need(!longest || nifazombi_ipv6_row_at(image, len, longest - 1, &row), "a look-up found no row");
        need(wrong || !is_searched || longest == longest6(image, len, asked[i]), "the longest row isn't found");
        for (int k = 0; up && k < 200; k++) {
            size_t next = nifazombi_ipv6_above(image, len, up - 1);
            need(next < up, "a walk upward doesn't go up");
            need(wrong || (nifazombi_ipv6_row_at(image, len, up - 1, &row) && row.link == next), "a row has another link");
            up = next;
        }
        size_t own = nifazombi_ipv6_get(image, len, row.first, row.bits);
        size_t around = nifazombi_ipv6_longest_around(image, len, row.first, row.bits);
        need(own <= count && around <= count, "a row of a network, or around it, that isn't there");
        need(wrong || !own || around == own, "another network is longest around a row's own");
        need(wrong || nifazombi_ipv6_longest_around(image, len, asked[i], 128) == longest, "an address alone has another row around");
        add(own), add(around);
        nifazombi_span span;
        nifazombi_ipv6_below(image, len, row.first, row.bits, &span);
        need(span.first + span.count <= count, "rows that aren't there");
        add(span.first), add(span.count);
    }
    if (is_searched) merge6(image, len, !wrong);
    need(!nifazombi_ipv6_above(image, len, SIZE_MAX), "a row is around one past the end");
    need(wrong || !nifazombi_ipv6_above(image, len, count), "a row is around the one behind the last");
    size_t looked = nifazombi_ipv6_longest_matches(image, len, asked, ASKED, found, ASKED);
    for (size_t i = 0; i < looked; i++) {
        need(found[i] <= count, "an index of many that isn't there");
        need(wrong || found[i] == nifazombi_ipv6_longest_match(image, len, asked[i]), "many aren't one by one");
    }
    add(looked);
    uint32_t again[ASKED];
    uint64_t values[ASKED];
    need(looked == nifazombi_ipv6_longest_values(image, len, asked, ASKED, again, ASKED, values, ASKED), "other counts of many");
    for (size_t i = 0; i < looked; i++) {
        bool is_found = found[i] && nifazombi_ipv6_row_at(image, len, found[i] - 1, &row);
        need(again[i] == found[i] && values[i] == (is_found ? row.value : 0), "another value of many");
    }
}

// Of an image: the last pair whose key is a prefix of some bytes, by its index and one more. Keys rise, so it is the longest.
static size_t nearest_of(const uint8_t *image, size_t len, const uint8_t *key, size_t key_len) {
    nifazombi_texts_place place;
    size_t found = 0;
    for (size_t at = 0; nifazombi_texts_pair_at(image, len, at, &place); at++)
        if (place.len <= key_len && memcmp(image + place.first, key, place.len) == 0) found = at + 1;
    return found;
}

static bool has_key(const uint8_t *image, size_t len, size_t at, const uint8_t *key, size_t key_len) {
    nifazombi_texts_place place;
    return nifazombi_texts_pair_at(image, len, at, &place) && place.len == key_len &&
           memcmp(image + place.first, key, key_len) == 0;
}

static void ask_texts(const uint8_t *image, size_t len, bool is_searched) {
    size_t at = 0, count = nifazombi_texts_len(image, len);
    uint32_t wrong = nifazombi_texts_check(image, len, &at), found[ASKED] = {0};
    add(wrong), add(at), add(count);
    for (int i = 0; i < ASKED; i++) {
        nifazombi_texts_place place = {0, 0, 0};
        uint8_t key[24];
        bool is_near = i % 2 && count && nifazombi_texts_pair_at(image, len, draw() % count, &place);
        need(place.first + place.len <= len, "a key outside");
        size_t key_len = is_near && place.len < 20 ? place.len + draw() % 3 : draw() % 20;
        for (size_t k = 0; k < key_len; k++) key[k] = (uint8_t)"ab/\xc3"[draw() % 4];
        if (is_near) memcpy(key, image + place.first, place.len < key_len ? place.len : key_len);
        size_t nearest = nifazombi_texts_nearest(image, len, key, key_len), up = nearest;
        size_t same = nifazombi_texts_get(image, len, key, key_len), rank = nifazombi_texts_rank(image, len, key, key_len);
        add(nearest), add(same), add(rank);
        need(nearest <= count && same <= count && rank <= count, "a pair that isn't there");
        need(wrong || !same || has_key(image, len, same - 1, key, key_len), "another key's pair is got");
        need(wrong || same || !nearest || !has_key(image, len, nearest - 1, key, key_len), "a stored key isn't got");
        need(wrong || !is_searched || nearest == nearest_of(image, len, key, key_len), "the longest prefix isn't found");
        for (int k = 0; up && k < 200; k++) {
            size_t next = nifazombi_texts_above(image, len, up - 1);
            need(next < up, "a walk upward doesn't go up");
            up = next;
        }
        nifazombi_span below, between;
        nifazombi_texts_below(image, len, key, key_len, &below);
        nifazombi_texts_between(image, len, key, key_len, key, key_len / 2, &between);
        need(below.first + below.count <= count && between.first + between.count <= count, "pairs that aren't there");
        add(below.first), add(below.count), add(between.first), add(between.count);
        memset(found, 0xa5, sizeof found);
        size_t all = nifazombi_texts_prefixes(image, len, key, key_len, found, ASKED);
        need(all <= ASKED && (all == 0 || found[0] + 1u == nearest), "prefixes don't begin with the longest");
        for (size_t k = all; k < ASKED; k++) need(found[k] == 0xa5a5a5a5, "the room behind the prefixes doesn't stay");
        add(all);
    }
    need(!nifazombi_texts_above(image, len, SIZE_MAX), "a pair is above one past the end");
    need(wrong || !nifazombi_texts_above(image, len, count), "a pair is above the one behind the last");
}

// Asks each kind, since bytes say themselves what they are.
static void ask(const uint8_t *image, size_t len, bool is_searched) {
    nifazombi_span own = {0, 0};
    if (nifazombi_payload(image, len, &own)) need(own.first + own.count <= len, "a payload outside");
    add(own.first), add(own.count);
    ask4(image, len, is_searched);
    ask6(image, len, is_searched);
    ask_texts(image, len, is_searched);
}

static uint8_t *front, *end;

// Asks bytes that end where memory does, and bytes that begin where it does.
static void try(const uint8_t *bytes, size_t len, bool is_searched) {
    memcpy(end - len, bytes, len);
    ask(end - len, len, is_searched);
    memcpy(front, bytes, len);
    ask(front, len, is_searched);
}

typedef uint32_t writer(const void *rows, size_t count, uint8_t *out, size_t room, size_t *at);

static uint32_t write4(const void *rows, size_t count, uint8_t *out, size_t room, size_t *at) {
    return nifazombi_ipv4_write(rows, count, front, 0, out, room, at);
}

static uint32_t write6(const void *rows, size_t count, uint8_t *out, size_t room, size_t *at) {
    return nifazombi_ipv6_write(rows, count, front, 0, out, room, at);
}

// An image of texts takes all the bytes that `nifazombi_texts_image_len` says.
static uint32_t write_texts(const void *pairs, size_t count, uint8_t *out, size_t room, size_t *at) {
    uint32_t wrong = nifazombi_texts_write(pairs, count, front, 0, out, room, at);
    if (!wrong) *at = room;
    return wrong;
}

static void swap(uint8_t *one, uint8_t *other, size_t size) {
    for (uint8_t kept; size--; kept = one[size], one[size] = other[size], other[size] = kept) {}
}

// Writes rows that rise into the least room that is taken, where memory ends, and asks that whole and the image alone,
// which stands where memory ends then. It returns how many bytes the image takes: those behind them stay. One byte less
// of room is too short, and of two rows that change places the second is out of order; nothing is written then.
static size_t try_writer(writer *write, uint8_t *rows, size_t size, size_t count, size_t room) {
    uint8_t *out = end - room;
    size_t at = 0, second = 1 + draw() % (count - 1), len = SIZE_MAX;
    memset(out, 0xa5, room);
    need(write(rows, count, out + 1, room - 1, &at) == NIFAZOMBI_ERROR_SHORT, "a short buffer isn't told");
    swap(rows + second * size, rows + (second - 1) * size, size);
    need(write(rows, count, out, room, &at) == NIFAZOMBI_ERROR_OUT_OF_ORDER && at == second, "another row is out of order");
    for (size_t k = 0; k < room; k++) need(out[k] == 0xa5, "a write that failed has written");
    swap(rows + second * size, rows + (second - 1) * size, size);
    need(!write(rows, count, out, room, &len), "rows in order aren't written");
    need(len <= room, "more is written than there is room for");
    for (size_t k = len; k < room; k++) need(out[k] == 0xa5, "bytes behind the image don't stay");
    add(len);
    ask(out, room, true);
    memmove(end - len, out, len);
    ask(end - len, len, true);
    return len;
}

// Writes the rows of an image again, and reads them back.
static void write_again4(const uint8_t *image, size_t len) {
    static nifazombi_ipv4_row rows[MOST / 16], row;
    size_t count = 0, wrong;
    while (nifazombi_ipv4_row_at(image, len, count, &rows[count])) count++;
    len = try_writer(write4, (uint8_t *)rows, sizeof row, count, nifazombi_ipv4_image_len(count, 0));
    need(!nifazombi_ipv4_check(end - len, len, &wrong), "what is written is no image");
    for (size_t at = 0; at < count; at++) {
        bool is_there = nifazombi_ipv4_row_at(end - len, len, at, &row);
        need(is_there && memcmp(&row, &rows[at], sizeof row) == 0, "another row is written");
    }
}

static void write_again6(const uint8_t *image, size_t len) {
    static nifazombi_ipv6_row rows[MOST / 32], row;
    size_t count = 0, wrong;
    while (nifazombi_ipv6_row_at(image, len, count, &rows[count])) count++;
    len = try_writer(write6, (uint8_t *)rows, sizeof row, count, nifazombi_ipv6_image_len(count, 0));
    need(!nifazombi_ipv6_check(end - len, len, &wrong), "what is written is no image");
    for (size_t at = 0; at < count; at++) {
        bool is_there = nifazombi_ipv6_row_at(end - len, len, at, &row);
        need(is_there && memcmp(&row, &rows[at], sizeof row) == 0, "another row is written");
    }
}

static void write_texts_again(const uint8_t *image, size_t len) {
    static nifazombi_texts_pair pairs[MOST / 24];
    nifazombi_texts_place place;
    size_t count = 0, wrong;
    for (; nifazombi_texts_pair_at(image, len, count, &place); count++)
        pairs[count] = (nifazombi_texts_pair){image + place.first, place.len, place.value};
    len = try_writer(write_texts, (uint8_t *)pairs, sizeof *pairs, count, nifazombi_texts_image_len(pairs, count, 0));
    need(!nifazombi_texts_check(end - len, len, &wrong), "what is written is no image");
    for (size_t at = 0; at < count; at++) {
        bool is_there = nifazombi_texts_pair_at(end - len, len, at, &place) && place.value == pairs[at].value;
        need(is_there && has_key(end - len, len, at, pairs[at].key, pairs[at].key_len), "another pair is written");
    }
}

static void write_again(const uint8_t *image, size_t len) {
    size_t at;
    if (!nifazombi_ipv4_check(image, len, &at)) {
        write_again4(image, len);
    } else if (!nifazombi_ipv6_check(image, len, &at)) {
        write_again6(image, len);
    } else {
        need(!nifazombi_texts_check(image, len, &at), "a stored image is none");
        write_texts_again(image, len);
    }
}

// The most bytes that an image takes, by how many rows there are. What is too much for one, rows, bytes or bytes of keys,
// has the length 0; the last that isn't has one.
static void try_lengths(void) {
    size_t many = (size_t)1 << 32;
    static const struct {
        size_t rows, cells;
    } each[] = {{0, 0}, {255, 0}, {256, 1 << 7}, {511, 1 << 7}, {512, 1 << 8}, {(1 << 20) - 1, 1 << 18},
                {1 << 22, 1 << 21}, {1 << 23, 1 << 21}, {(1u << 31) - 1, 1 << 21}, {1u << 31, 0}, {(1ull << 32) - 1, 0}};
    for (size_t k = 0; k < sizeof each / sizeof *each; k++) {
        size_t n = each[k].rows, cells = 4 * each[k].cells, spans = 2 * n + 1;
        need(nifazombi_ipv4_image_len(n, k) == 112 + 16 * n + 8 * spans + cells + k, "rows of IPv4 have another length");
        need(nifazombi_ipv6_image_len(n, k) == 112 + 32 * n + 20 * spans + cells + k, "rows of IPv6 have another length");
    }
    uint8_t *keys = mmap(NULL, many / 2, PROT_READ, MAP_PRIVATE | MAP_ANONYMOUS | MAP_NORESERVE, -1, 0);
    nifazombi_texts_pair pairs[] = {{keys, many / 2, 0}, {keys, many / 2, 0}};
    need(keys != MAP_FAILED, "no memory");
    need(!nifazombi_ipv4_image_len(many, 0) && !nifazombi_ipv6_image_len(many, 0), "too many rows have a length");
    need(!nifazombi_ipv4_image_len(1, SIZE_MAX) && !nifazombi_ipv6_image_len(1, SIZE_MAX), "too many bytes have a length");
    need(!nifazombi_texts_image_len(pairs, 2, 0), "too many bytes of keys have a length");
    need(!nifazombi_texts_image_len(pairs, 0, SIZE_MAX), "too many bytes have a length");
    pairs[1].key_len--;
    need(nifazombi_texts_image_len(pairs, 2, 0) == 64 + 48 + many - 1, "texts that fit have no length");
    munmap(keys, many / 2);
}

// A payload is looked for among the first 64 parts that are listed.
static void try_many_parts(void) {
    uint8_t image[16 + 24 * 66] = {0};
    nifazombi_span own = {0, 0};
    image[12] = 66;
    for (size_t at = 66; at--; image[16 + 24 * at] = 7) {
        image[16 + 24 * at] = 3;
        need(nifazombi_payload(image, sizeof image, &own) == (at < 64), "a payload is looked for elsewhere");
    }
}

static size_t changed(uint8_t *to, const uint8_t *from, size_t len) {
    memcpy(to, from, len);
    for (uint64_t times = draw() % 8; times-- && len;) {
        size_t most = draw() % 2 && len > 112 ? 112 : len;
        to[draw() % most] = draw() % 4 ? (uint8_t)draw() : (uint8_t)(draw() % 3 - 1);
    }
    return draw() % 4 ? len : draw() % (len + 1);
}

int main(int count, char **words) {
    size_t page = (size_t)sysconf(_SC_PAGESIZE);
    uint8_t *all = mmap(NULL, MOST + 2 * page, PROT_NONE, MAP_PRIVATE | MAP_ANONYMOUS, -1, 0);
    need(all != MAP_FAILED && count > 2 && !mprotect(all + page, MOST, PROT_READ | PROT_WRITE), "no memory");
    front = all + page, end = front + MOST;
    all = mmap(NULL, MOST_MERGED + page, PROT_NONE, MAP_PRIVATE | MAP_ANONYMOUS, -1, 0);
    need(all != MAP_FAILED && !mprotect(all, MOST_MERGED, PROT_READ | PROT_WRITE), "no memory");
    merged_end = all + MOST_MERGED;
    static uint8_t image[MOST], other[MOST];
    try_lengths();
    try_many_parts();
    for (int k = 2; k < count; k++) {
        FILE *file = fopen(words[k], "rb");
        size_t len = file ? fread(image, 1, MOST, file) : 0;
        need(len && feof(file), "an image is missing, or too long");
        fclose(file);
        write_again(image, len);
        try(image, len, true);
        for (size_t less = 0; less < len; less++) try(image, less, false);
        for (size_t bit = 0; len < 4096 && bit < 8 * len; bit++) {
            memcpy(other, image, len);
            other[bit / 8] ^= (uint8_t)(1 << bit % 8);
            try(other, len, true);
        }
        for (long i = atol(words[1]); i--;) try(other, changed(other, image, len), i % 16 == 0);
    }
    printf("%016llx\n", (unsigned long long)sum);
    return 0;
}
