// Made by `tools/checks/texts --write` of the sources of crates/nifazombi_c.
//
// Tables in one run of bytes, searched where they lie. Each call takes any bytes whatever, ends, and reads only inside
// them. Nothing is kept between two calls, and nothing allocated, but in a library that Cargo built by a call that is
// passed pairs: where there is no memory for a list of them, `nifazombi_texts_image_len` returns 0, and
// `nifazombi_texts_write` NIFAZOMBI_ERROR_FULL. A pointer may be anything where its length is 0, and else it is never
// NULL, nor is one without a length, such as `at`. What a call only reads, nobody may write to during the call, and
// what it writes to is of no use to anybody else. A list of IPv6 addresses is of arrays of 16 octets, or of `struct
// in6_addr`, and its length is how many they are.

#ifndef NIFAZOMBI_H
#define NIFAZOMBI_H

#include <stdbool.h>
#include <stddef.h>
#include <stdint.h>

#ifdef __cplusplus
extern "C" {
#endif

// There is no room for the head and the list of the parts, or for the image that is to be written.
#define NIFAZOMBI_ERROR_SHORT 1

// The first bytes aren't those of such an image.
#define NIFAZOMBI_ERROR_MARK 2

// The image is of another version.
#define NIFAZOMBI_ERROR_VERSION 3

// The part listed at this index is missing or of another kind, lies outside the bytes, or has
// another size or detail.
#define NIFAZOMBI_ERROR_PART 4

// The row at this index isn't valid, doesn't come after the row before it, or has another link.
#define NIFAZOMBI_ERROR_ROW 5

// The cell at this index counts wrongly, or leads to another span.
#define NIFAZOMBI_ERROR_CELL 6

// There are 2^32 rows or more, with the changes if any, or so many bytes of keys.
#define NIFAZOMBI_ERROR_FULL 7

// The row or change at this index isn't valid, or doesn't come after the one before it.
#define NIFAZOMBI_ERROR_OUT_OF_ORDER 8

// The first span doesn't begin at 0, or the span at this index doesn't begin before the next one,
// or has another answer than some of its addresses.
#define NIFAZOMBI_ERROR_SPAN 9

// A row as it lies in an image, in 16 bytes: a network by its first address and how many bits its
// addresses share, the index and one more of the row of the network around it, or 0, and the
// network's value. Of the link `write` takes no notice.
typedef struct {
    uint32_t first;
    uint32_t bits;
    uint32_t link;
    uint32_t value;
} nifazombi_ipv4_row;

// A change of a routing table: its row is stored from now on where `removes` is 0; else its
// network goes, and the row's value and link count for nothing.
typedef struct {
    nifazombi_ipv4_row row;
    uint32_t removes;
} nifazombi_ipv4_change;

// A row as it lies in an image, in 32 bytes: a network by its first address, in network order, and
// how many bits its addresses share, the index and one more of the row of the network around it,
// or 0, and the network's value. Of the link `write` takes no notice.
typedef struct {
    uint8_t first[16];
    uint32_t bits;
    uint32_t link;
    uint64_t value;
} nifazombi_ipv6_row;

// A change of a routing table: its row is stored from now on where `removes` is 0; else its
// network goes, and the row's value and link count for nothing.
typedef struct {
    nifazombi_ipv6_row row;
    uint32_t removes;
} nifazombi_ipv6_change;

// A key and its value.
typedef struct {
    const uint8_t *key;
    size_t key_len;
    uint64_t value;
} nifazombi_texts_pair;

// Where a key lies in an image, by the place of its first byte and how many bytes it has, and its
// value.
typedef struct {
    size_t first;
    size_t len;
    uint64_t value;
} nifazombi_texts_place;

// Some rows that stand one behind the other, or some bytes: the first, and how many there are.
typedef struct {
    size_t first;
    size_t count;
} nifazombi_span;

// Checks whether bytes are an image of IPv4 networks, in linear time. Returns 0 of an image, and
// else why they are none: one of the numbers above; an index that belongs to it is put into `at`.
uint32_t nifazombi_ipv4_check(const uint8_t *image, size_t image_len, size_t *at);

// The count of rows.
size_t nifazombi_ipv4_len(const uint8_t *image, size_t image_len);

// Puts the row at an index into `row`, and returns whether there is one.
bool nifazombi_ipv4_row_at(const uint8_t *image, size_t image_len, size_t at, nifazombi_ipv4_row *row);

// The row of the longest network that holds an address, by its index and one more, or 0 where none
// does.
size_t nifazombi_ipv4_longest_match(const uint8_t *image, size_t image_len, uint32_t address);

// Looks up addresses, as many as there are of both, and puts for each what
// `nifazombi_ipv4_longest_match` returns into `found`. Returns how many.
size_t nifazombi_ipv4_longest_matches(
    const uint8_t *image, size_t image_len,
    const uint32_t *addresses, size_t addresses_len,
    uint32_t *found, size_t found_len);

// Looks up addresses as `nifazombi_ipv4_longest_matches` does, and puts for each the value of its
// row too, or 0 where no network holds it, into `values`. Goes as far as the shortest of the
// three, and returns how many.
size_t nifazombi_ipv4_longest_values(
    const uint8_t *image, size_t image_len,
    const uint32_t *addresses, size_t addresses_len,
    uint32_t *found, size_t found_len,
    uint32_t *values, size_t values_len);

// The row of the longest network that holds all of a network, its own where there is one, by its
// index and one more, or 0 where none does.
size_t nifazombi_ipv4_longest_around(const uint8_t *image, size_t image_len, uint32_t first, uint32_t bits);

// The row of this very network, by its index and one more, or 0 where no row is of it.
size_t nifazombi_ipv4_get(const uint8_t *image, size_t image_len, uint32_t first, uint32_t bits);

// Puts the rows whose networks lie within a network, itself among them, into `span`: the index of
// the first, or the one that it would have where there is none, and how many there are.
void nifazombi_ipv4_below(const uint8_t *image, size_t image_len, uint32_t first, uint32_t bits, nifazombi_span *span);

// The row of the network around that of the row at an index, the longest other one that holds it,
// by its index and one more, or 0 where there is none. It is at most `at`, so a walk upward ends.
size_t nifazombi_ipv4_above(const uint8_t *image, size_t image_len, size_t at);

// How many bytes the image of so many rows takes at most, with so many bytes of the user's own, or
// 0 of 2^32 rows or more, and where these are 2^64 bytes or more.
size_t nifazombi_ipv4_image_len(size_t rows, size_t payload);

// Writes the image of rows in order, by first address and then by bits, whose links count for
// nothing, and of the user's own bytes into `out`. Returns 0, and puts into `at` how many bytes
// the image takes; or why it couldn't: one of the numbers above; an index that belongs to it is
// put into `at`, and `out` is as before then.
uint32_t nifazombi_ipv4_write(
    const nifazombi_ipv4_row *rows, size_t rows_len,
    const uint8_t *payload, size_t payload_len,
    uint8_t *out, size_t out_len,
    size_t *at);

// How many bytes the image takes at most that so many changes make of one, with so many bytes of
// the user's own, or 0 where all rows and changes are 2^32 or more, and where these are 2^64 bytes
// or more.
size_t nifazombi_ipv4_merge_len(const uint8_t *image, size_t image_len, size_t changes, size_t payload);

// Writes the image that changes make of another one, with the user's own bytes, into `out`. The
// changes are in order as rows are for `nifazombi_ipv4_write`, and no network has two; one that is
// removed needs no row. Returns 0, and puts into `at` how many bytes the new image takes; or why
// it couldn't: one of the numbers above; an index that belongs to it is put into `at`, and `out`
// is as before then. Of bytes that are no image it takes the first rows that are in order.
uint32_t nifazombi_ipv4_merge(
    const uint8_t *image, size_t image_len,
    const nifazombi_ipv4_change *changes, size_t changes_len,
    const uint8_t *payload, size_t payload_len,
    uint8_t *out, size_t out_len,
    size_t *at);

// Checks whether bytes are an image of IPv6 networks, in linear time. Returns 0 of an image, and
// else why they are none: one of the numbers above; an index that belongs to it is put into `at`.
uint32_t nifazombi_ipv6_check(const uint8_t *image, size_t image_len, size_t *at);

// The count of rows.
size_t nifazombi_ipv6_len(const uint8_t *image, size_t image_len);

// Puts the row at an index into `row`, and returns whether there is one.
bool nifazombi_ipv6_row_at(const uint8_t *image, size_t image_len, size_t at, nifazombi_ipv6_row *row);

// The row of the longest network that holds an address, by its index and one more, or 0 where none
// does.
size_t nifazombi_ipv6_longest_match(const uint8_t *image, size_t image_len, const uint8_t address[16]);

// Looks up addresses, as many as there are of both, and puts for each what
// `nifazombi_ipv6_longest_match` returns into `found`. Returns how many.
size_t nifazombi_ipv6_longest_matches(
    const uint8_t *image, size_t image_len,
    const void *addresses, size_t addresses_len,
    uint32_t *found, size_t found_len);

// Looks up addresses as `nifazombi_ipv6_longest_matches` does, and puts for each the value of its
// row too, or 0 where no network holds it, into `values`. Goes as far as the shortest of the
// three, and returns how many.
size_t nifazombi_ipv6_longest_values(
    const uint8_t *image, size_t image_len,
    const void *addresses, size_t addresses_len,
    uint32_t *found, size_t found_len,
    uint64_t *values, size_t values_len);

// The row of the longest network that holds all of a network, its own where there is one, by its
// index and one more, or 0 where none does.
size_t nifazombi_ipv6_longest_around(const uint8_t *image, size_t image_len, const uint8_t first[16], uint32_t bits);

// The row of this very network, by its index and one more, or 0 where no row is of it.
size_t nifazombi_ipv6_get(const uint8_t *image, size_t image_len, const uint8_t first[16], uint32_t bits);

// Puts the rows whose networks lie within a network, itself among them, into `span`: the index of
// the first, or the one that it would have where there is none, and how many there are.
void nifazombi_ipv6_below(
    const uint8_t *image, size_t image_len,
    const uint8_t first[16],
    uint32_t bits,
    nifazombi_span *span);

// The row of the network around that of the row at an index, the longest other one that holds it,
// by its index and one more, or 0 where there is none. It is at most `at`, so a walk upward ends.
size_t nifazombi_ipv6_above(const uint8_t *image, size_t image_len, size_t at);

// How many bytes the image of so many rows takes at most, with so many bytes of the user's own, or
// 0 of 2^32 rows or more, and where these are 2^64 bytes or more.
size_t nifazombi_ipv6_image_len(size_t rows, size_t payload);

// Writes the image of rows in order, by first address and then by bits, whose links count for
// nothing, and of the user's own bytes into `out`. Returns 0, and puts into `at` how many bytes
// the image takes; or why it couldn't: one of the numbers above; an index that belongs to it is
// put into `at`, and `out` is as before then.
uint32_t nifazombi_ipv6_write(
    const nifazombi_ipv6_row *rows, size_t rows_len,
    const uint8_t *payload, size_t payload_len,
    uint8_t *out, size_t out_len,
    size_t *at);

// How many bytes the image takes at most that so many changes make of one, with so many bytes of
// the user's own, or 0 where all rows and changes are 2^32 or more, and where these are 2^64 bytes
// or more.
size_t nifazombi_ipv6_merge_len(const uint8_t *image, size_t image_len, size_t changes, size_t payload);

// Writes the image that changes make of another one, with the user's own bytes, into `out`. The
// changes are in order as rows are for `nifazombi_ipv6_write`, and no network has two; one that is
// removed needs no row. Returns 0, and puts into `at` how many bytes the new image takes; or why
// it couldn't: one of the numbers above; an index that belongs to it is put into `at`, and `out`
// is as before then. Of bytes that are no image it takes the first rows that are in order.
uint32_t nifazombi_ipv6_merge(
    const uint8_t *image, size_t image_len,
    const nifazombi_ipv6_change *changes, size_t changes_len,
    const uint8_t *payload, size_t payload_len,
    uint8_t *out, size_t out_len,
    size_t *at);

// Puts where the user's own bytes in an image of any kind lie, and how many they are, into `span`,
// and returns whether there are any.
bool nifazombi_payload(const uint8_t *image, size_t image_len, nifazombi_span *span);

// Checks whether bytes are an image of texts, in linear time. Returns 0 of an image, and else why
// they are none: one of the numbers above; an index that belongs to it is put into `at`.
uint32_t nifazombi_texts_check(const uint8_t *image, size_t image_len, size_t *at);

// The count of pairs.
size_t nifazombi_texts_len(const uint8_t *image, size_t image_len);

// Puts where the pair at an index lies, in the order of the keys, into `place`, and returns
// whether there is one.
bool nifazombi_texts_pair_at(const uint8_t *image, size_t image_len, size_t at, nifazombi_texts_place *place);

// The pair of a key, by its index and one more, or 0 where it isn't stored.
size_t nifazombi_texts_get(const uint8_t *image, size_t image_len, const uint8_t *key, size_t key_len);

// The pair of the longest stored key that is a prefix of some bytes, by its index and one more, or
// 0 where there is none.
size_t nifazombi_texts_nearest(const uint8_t *image, size_t image_len, const uint8_t *key, size_t key_len);

// The pair of the longest stored key that is a prefix of the key at an index, and not this one, by
// its index and one more, or 0 where there is none. It is at most `at`, so a walk upward ends.
size_t nifazombi_texts_above(const uint8_t *image, size_t image_len, size_t at);

// Puts the indices of the pairs whose keys are prefixes of some bytes into `found`, from the
// longest up, as many as it has room for. Returns how many.
size_t nifazombi_texts_prefixes(
    const uint8_t *image, size_t image_len,
    const uint8_t *key, size_t key_len,
    uint32_t *found, size_t found_len);

// How many of the keys come before some bytes: the index at which these are stored, or would be.
size_t nifazombi_texts_rank(const uint8_t *image, size_t image_len, const uint8_t *key, size_t key_len);

// Puts the pairs whose keys begin with some bytes into `span`.
void nifazombi_texts_below(
    const uint8_t *image, size_t image_len,
    const uint8_t *prefix, size_t prefix_len,
    nifazombi_span *span);

// Puts the pairs whose keys are `from` or come after it, and come before `to`, into `span`.
void nifazombi_texts_between(
    const uint8_t *image, size_t image_len,
    const uint8_t *from, size_t from_len,
    const uint8_t *to, size_t to_len,
    nifazombi_span *span);

// How many bytes the image of pairs takes, with so many bytes of the user's own, or 0 of 2^32
// pairs or more, or as many bytes of keys, and where these are 2^64 bytes or more.
size_t nifazombi_texts_image_len(const nifazombi_texts_pair *pairs, size_t pairs_len, size_t payload);

// Writes the image of pairs whose keys rise in the order of their bytes, and of the user's own
// bytes, into `out`. Returns 0, or why it couldn't: one of the numbers above; the index that
// belongs to it is put into `at`, and `out` is as before then. Bytes behind the image stay as they
// are.
uint32_t nifazombi_texts_write(
    const nifazombi_texts_pair *pairs, size_t pairs_len,
    const uint8_t *payload, size_t payload_len,
    uint8_t *out, size_t out_len,
    size_t *at);

#ifdef __cplusplus
}
#endif

#endif
