// Times look-ups in images of random networks, as many as the internet's routers have of each length, half of the addresses
// inside one of them.
//
// usage: bench COUNT ROUNDS [FILE], and with -DDPDK `pkg-config --cflags --libs libdpdk` beside its rte_lpm and rte_lpm6
//
// With a file its lines are keys of an image, too, of which each is asked for, in another order, and what is nearest to it
// with three bytes more.
//
// Each row is the best round: nanoseconds an address, and a sum of the answers, which one family's rows have in common.
#include <fcntl.h>
#include <stdio.h>
#include <stdlib.h>
#include <string.h>
#include <sys/mman.h>
#include <sys/stat.h>
#include <time.h>
#include <unistd.h>

#include "nifazombi.h"

static uint64_t state = 88172645463325252u;

static uint64_t draw(void) {
    state ^= state << 13;
    state ^= state >> 7;
    return state ^= state << 17;
}

static double now(void) {
    struct timespec at;
    clock_gettime(CLOCK_PROCESS_CPUTIME_ID, &at);
    return 1e9 * at.tv_sec + at.tv_nsec;
}

typedef struct {
    unsigned percent, least, most;
} share;

static const share IPV4[] = {{60, 24, 24}, {92, 16, 23}, {94, 8, 15}, {100, 25, 32}};
static const share IPV6[] = {{45, 48, 48}, {65, 32, 32}, {80, 40, 40}, {90, 44, 44}, {100, 29, 64}};

static unsigned drawn_bits(const share *shares) {
    unsigned percent = draw() % 100;
    while (percent >= shares->percent) shares++;
    return shares->least + draw() % (shares->most - shares->least + 1);
}

__extension__ typedef unsigned __int128 wide;

typedef struct {
    wide first;
    unsigned bits;
} network;

static wide mask(unsigned width, unsigned bits) {
    wide all = width == 128 ? ~(wide)0 : ((wide)1 << width) - 1;
    return bits == 0 ? 0 : all ^ (width == bits ? 0 : ((wide)1 << (width - bits)) - 1);
}

static int by_order(const void *one, const void *other) {
    const network *a = one, *b = other;
    return a->first != b->first ? (a->first < b->first ? -1 : 1) : (int)a->bits - (int)b->bits;
}

// An address of a family at random: those of IPv6 begin with the bits 001.
static wide drawn(unsigned width) {
    wide number = (wide)draw() << 64 | draw();
    return width == 32 ? (uint32_t)number : number >> 3 | (wide)1 << 125;
}

static void octets_of(wide number, uint8_t *octets) {
    for (int k = 0; k < 16; k++) octets[k] = (uint8_t)(number >> (120 - 8 * k));
}

static void *made(size_t size) {
    void *memory = malloc(size ? size : 1);
    if (!memory) exit(1);
    return memory;
}

static void say(const char *name, double least, uint64_t sum, size_t count) {
    printf("%-28s %7.1f ns  %llu\n", name, least / count, (unsigned long long)sum);
}

#define TIMED(name, ...)                                  \
    do {                                                  \
        double least = 1e30;                              \
        uint64_t sum = 0;                                 \
        for (int round = 0; round < rounds; round++) {    \
            sum = 0;                                      \
            double start = now();                         \
            __VA_ARGS__;                                  \
            double took = now() - start;                  \
            if (took < least) least = took;               \
        }                                                 \
        say(name, least, sum, count);                     \
    } while (0)

#ifdef DPDK
#include <rte_eal.h>
#include <rte_lpm.h>
#include <rte_lpm6.h>

static void start_dpdk(void) {
    static char *words[] = {"bench", "--no-huge", "--no-pci", "-l", "0", "-m", "1500", "--log-level", "4", "--no-telemetry"};
    if (rte_eal_init(10, words) < 0) exit(1);
}
#endif

static uint8_t *image;
static size_t len;

// Saves the image, and opens it again by mmap.
static void opened(uint32_t (*check)(const uint8_t *, size_t, size_t *), const char *name) {
    FILE *file = tmpfile();
    if (!file || fwrite(image, 1, len, file) != len || fflush(file)) exit(1);
    double start = now();
    size_t at;
    void *found = mmap(NULL, len, PROT_READ, MAP_SHARED, fileno(file), 0);
    double mapped = now();
    if (found == MAP_FAILED || check(found, len, &at)) exit(1);
    printf("%-28s %7.3f ms, its check %.2f ms, %zu bytes\n", name, (mapped - start) / 1e6, (now() - mapped) / 1e6, len);
    munmap(found, len);
    fclose(file);
}

static void bench4(const network *rows, size_t n, const wide *asked, size_t count, int rounds) {
    nifazombi_ipv4_row *each = made(n * sizeof *each);
    for (size_t k = 0; k < n; k++) each[k] = (nifazombi_ipv4_row){(uint32_t)rows[k].first, rows[k].bits, 0, k + 1};
    size_t most = nifazombi_ipv4_image_len(n, 0);
    image = made(most);
    double start = now();
    if (nifazombi_ipv4_write(each, n, NULL, 0, image, most, &len)) exit(1);
    printf("%-28s %7.1f ns a row\n", "IPv4 write", (now() - start) / n);
    opened(nifazombi_ipv4_check, "IPv4 open");
    uint32_t *numbers = made(4 * count), *found = made(4 * count);
    for (size_t k = 0; k < count; k++) numbers[k] = (uint32_t)asked[k];
    TIMED("IPv4 longest_match", for (size_t k = 0; k < count; k++) sum += nifazombi_ipv4_longest_match(image, len, numbers[k]));
    TIMED("IPv4 longest_matches", nifazombi_ipv4_longest_matches(image, len, numbers, count, found, count);
          for (size_t k = 0; k < count; k++) sum += found[k]);
#ifdef DPDK
    struct rte_lpm_config with = {.max_rules = n + 1, .number_tbl8s = 1 << 17};
    struct rte_lpm *lpm = rte_lpm_create("four", SOCKET_ID_ANY, &with);
    if (!lpm) exit(1);
    for (size_t k = 0; k < n; k++)
        if (rte_lpm_add(lpm, each[k].first, each[k].bits, k + 1)) exit(1);
    TIMED("IPv4 rte_lpm", for (size_t k = 0; k < count; k++) {
        uint32_t next = 0;
        if (rte_lpm_lookup(lpm, numbers[k], &next) == 0) sum += next;
    });
    rte_lpm_free(lpm);
#endif
    free(each), free(image), free(numbers), free(found);
}

static void bench6(const network *rows, size_t n, const wide *asked, size_t count, int rounds) {
    nifazombi_ipv6_row *each = made(n * sizeof *each);
    for (size_t k = 0; k < n; k++) {
        each[k] = (nifazombi_ipv6_row){.bits = rows[k].bits, .value = k + 1};
        octets_of(rows[k].first, each[k].first);
    }
    size_t most = nifazombi_ipv6_image_len(n, 0);
    image = made(most);
    double start = now();
    if (nifazombi_ipv6_write(each, n, NULL, 0, image, most, &len)) exit(1);
    printf("%-28s %7.1f ns a row\n", "IPv6 write", (now() - start) / n);
    opened(nifazombi_ipv6_check, "IPv6 open");
    uint8_t(*addresses)[16] = made(16 * count);
    uint32_t *found = made(4 * count);
    for (size_t k = 0; k < count; k++) octets_of(asked[k], addresses[k]);
    TIMED("IPv6 longest_match", for (size_t k = 0; k < count; k++) sum += nifazombi_ipv6_longest_match(image, len, addresses[k]));
    TIMED("IPv6 longest_matches", nifazombi_ipv6_longest_matches(image, len, addresses, count, found, count);
          for (size_t k = 0; k < count; k++) sum += found[k]);
#ifdef DPDK
    struct rte_lpm6_config with = {.max_rules = n + 1, .number_tbl8s = 1 << 19};
    struct rte_lpm6 *lpm = rte_lpm6_create("six", SOCKET_ID_ANY, &with);
    if (!lpm) exit(1);
    for (size_t k = 0; k < n; k++)
        if (rte_lpm6_add(lpm, each[k].first, each[k].bits, k + 1)) exit(1);
    TIMED("IPv6 rte_lpm6", for (size_t k = 0; k < count; k++) {
        uint32_t next = 0;
        if (rte_lpm6_lookup(lpm, addresses[k], &next) == 0) sum += next;
    });
    rte_lpm6_free(lpm);
#endif
    free(each), free(image), free(addresses), free(found);
}

typedef struct {
    const uint8_t *key;
    size_t len;
} line;

static int by_bytes(const void *one, const void *other) {
    const line *a = one, *b = other;
    int found = memcmp(a->key, b->key, a->len < b->len ? a->len : b->len);
    return found ? found : a->len < b->len ? -1 : a->len > b->len;
}

// The lines of a file, in order, none twice.
static line *lines_of(const char *path, size_t *count) {
    int file = open(path, O_RDONLY);
    struct stat found;
    if (file < 0 || fstat(file, &found)) exit(1);
    uint8_t *text = made(found.st_size + 1);
    size_t size = found.st_size, n = 0, kept = 0;
    if (read(file, text, size) != found.st_size) exit(1);
    line *lines = made((size + 1) * sizeof *lines);
    for (size_t at = 0, start = 0; at < size; at++)
        if (text[at] == '\n') lines[n++] = (line){text + start, at - start}, start = at + 1;
    qsort(lines, n, sizeof *lines, by_bytes);
    for (size_t k = 0; k < n; k++)
        if (!kept || by_bytes(&lines[kept - 1], &lines[k])) lines[kept++] = lines[k];
    *count = kept;
    return lines;
}

static void bench_texts(const char *path, int rounds) {
    size_t count, at;
    line *lines = lines_of(path, &count), *asked = made(count * sizeof *asked);
    nifazombi_texts_pair *pairs = made(count * sizeof *pairs);
    for (size_t k = 0; k < count; k++) pairs[k] = (nifazombi_texts_pair){lines[k].key, lines[k].len, k};
    len = nifazombi_texts_image_len(pairs, count, 0);
    image = made(len);
    double start = now();
    if (nifazombi_texts_write(pairs, count, NULL, 0, image, len, &at)) exit(1);
    printf("%-28s %7.1f ns a pair, %zu pairs\n", "texts write", (now() - start) / count, count);
    opened(nifazombi_texts_check, "texts open");
    for (size_t k = 0; k < count; k++) asked[k] = lines[k];
    for (size_t k = count; k > 1; k--) {
        size_t other = draw() % k;
        line kept = asked[k - 1];
        asked[k - 1] = asked[other], asked[other] = kept;
    }
    TIMED("texts get", for (size_t k = 0; k < count; k++) sum += nifazombi_texts_get(image, len, asked[k].key, asked[k].len));
    TIMED("texts nearest", for (size_t k = 0; k < count; k++) {
        uint8_t longer[256];
        size_t size = asked[k].len < 250 ? asked[k].len : 250;
        memcpy(longer, asked[k].key, size);
        memcpy(longer + size, "zzz", 3);
        sum += nifazombi_texts_nearest(image, len, longer, size + 3);
    });
    TIMED("texts rank", for (size_t k = 0; k < count; k++) sum += nifazombi_texts_rank(image, len, asked[k].key, asked[k].len));
    TIMED("texts below", for (size_t k = 0; k < count; k++) {
        nifazombi_span span;
        nifazombi_texts_below(image, len, asked[k].key, asked[k].len < 3 ? asked[k].len : 3, &span);
        sum += span.count;
    });
    free(image), free(pairs), free(asked), free(lines);
}

// So many networks in order, none twice, and addresses, of which each second one lies in one of them.
static void draw_table(unsigned width, const share *shares, network *rows, size_t *n, wide *asked, size_t count) {
    for (size_t k = 0; k < *n; k++) {
        rows[k].bits = drawn_bits(shares);
        rows[k].first = drawn(width) & mask(width, rows[k].bits);
    }
    qsort(rows, *n, sizeof *rows, by_order);
    size_t kept = 0;
    for (size_t k = 0; k < *n; k++)
        if (!kept || by_order(&rows[kept - 1], &rows[k])) rows[kept++] = rows[k];
    *n = kept;
    for (size_t k = 0; k < count; k++) {
        const network *in = &rows[draw() % *n];
        asked[k] = k % 2 ? in->first | (drawn(width) & ~mask(width, in->bits) & mask(width, width)) : drawn(width);
    }
}

int main(int words, char **word) {
    if (words != 3 && words != 4) return 2;
    size_t n = strtoul(word[1], NULL, 10), kept = n, count = n > 200000 ? 2000000 : 500000;
    int rounds = atoi(word[2]);
#ifdef DPDK
    start_dpdk();
#endif
    network *rows = made(n * sizeof *rows);
    wide *asked = made(count * sizeof *asked);
    draw_table(32, IPV4, rows, &kept, asked, count);
    bench4(rows, kept, asked, count, rounds);
    kept = n;
    draw_table(128, IPV6, rows, &kept, asked, count);
    bench6(rows, kept, asked, count, rounds);
    free(rows), free(asked);
    if (words == 4) bench_texts(word[3], rounds);
    return 0;
}
