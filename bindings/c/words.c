// Completes a word, and finds the setting that stands nearest above a path.
#include <stdio.h>
#include <stdlib.h>
#include <string.h>

#include <nifazombi.h>

#define PAIR(text, number) {.key = (const uint8_t *)text, .key_len = sizeof text - 1, .value = number}

static const nifazombi_texts_pair PAIRS[] = {  // in the order of their bytes
    PAIR("/srv", 1), PAIR("/srv/mail/", 2), PAIR("toad", 3), PAIR("toast", 4), PAIR("toaster", 5),
};

int main(void) {
    size_t len = nifazombi_texts_image_len(PAIRS, 5, 0), at;
    uint8_t *image = malloc(len);
    if (!image || nifazombi_texts_write(PAIRS, 5, NULL, 0, image, len, &at) != 0) return 1;
    nifazombi_texts_place pair;
    nifazombi_span span;
    nifazombi_texts_below(image, len, (const uint8_t *)"toas", 4, &span);
    for (size_t k = 0; k < span.count; k++)
        if (nifazombi_texts_pair_at(image, len, span.first + k, &pair))
            printf("%.*s %llu\n", (int)pair.len, (const char *)image + pair.first, (unsigned long long)pair.value);
    const char *path = "/srv/mail/inbox";
    size_t nearest = nifazombi_texts_nearest(image, len, (const uint8_t *)path, strlen(path));
    if (nearest && nifazombi_texts_pair_at(image, len, nearest - 1, &pair))
        printf("%s: %llu\n", path, (unsigned long long)pair.value);
    free(image);
    return 0;
}
