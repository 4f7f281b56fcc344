// Writes a routing table into a file, maps the file, and looks up addresses.
#include <arpa/inet.h>
#include <fcntl.h>
#include <stdio.h>
#include <stdlib.h>
#include <sys/mman.h>
#include <sys/stat.h>
#include <unistd.h>

#include <nifazombi.h>

static const nifazombi_ipv4_row ROWS[] = {  // in order; the links are found by the call
    {.first = 0x0a000000, .bits = 8, .value = 100},
    {.first = 0x0a010000, .bits = 16, .value = 200},
    {.first = 0xc0000200, .bits = 24, .value = 300},
};

// Writes another file, which takes the name: whoever has mapped the old one keeps it.
static int save(const char *path) {
    char made[4096];
    int is_named = snprintf(made, sizeof made, "%s.new", path) < (int)sizeof made;
    size_t most = nifazombi_ipv4_image_len(3, 0), len;
    uint8_t *image = malloc(most);
    FILE *file = is_named ? fopen(made, "wb") : NULL;
    int is_saved = image && file && nifazombi_ipv4_write(ROWS, 3, NULL, 0, image, most, &len) == 0 &&
                   fwrite(image, 1, len, file) == len;
    free(image);
    is_saved = file && fclose(file) == 0 && is_saved && rename(made, path) == 0;
    if (file && !is_saved) remove(made);
    return is_saved;
}

int main(int count, char **words) {
    struct stat found;
    if (count < 2 || !save(words[1])) return 1;
    int file = open(words[1], O_RDONLY);
    if (file < 0 || fstat(file, &found) != 0) return 1;
    size_t len = found.st_size, at = 0;
    const uint8_t *image = mmap(NULL, len, PROT_READ, MAP_SHARED, file, 0);
    close(file);  // the map stays
    if (image == MAP_FAILED) return 1;
    uint32_t wrong = nifazombi_ipv4_check(image, len, &at);  // once; look-ups are safe without it too
    if (wrong) return fprintf(stderr, "no image: fault %u at %zu\n", wrong, at), 1;
    for (int k = 2; k < count; k++) {
        struct in_addr address;
        nifazombi_ipv4_row row;
        if (inet_pton(AF_INET, words[k], &address) != 1) return 1;
        size_t longest = nifazombi_ipv4_longest_match(image, len, ntohl(address.s_addr));
        if (longest && nifazombi_ipv4_row_at(image, len, longest - 1, &row))
            printf("%s: value %u, by a network of %u bits\n", words[k], row.value, row.bits);
        else
            printf("%s: no network holds it\n", words[k]);
    }
    return 0;
}
