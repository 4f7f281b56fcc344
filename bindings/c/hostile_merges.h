// Merges of one family, for hostile.c: CALL has what the library calls so, and OWN what stands there, of this family, and
// BITS how many bits its addresses have.
// Needs the rows of an image to be those of another one after changes, by a walk over both of these.
static void OWN(need_merged)(const uint8_t *image, size_t len, const CALL(change) *changes, size_t count,
                         const uint8_t *made, size_t made_len) {
    CALL(row) row, found;
    size_t from = 0, to = 0, next = 0;
    for (;;) {
        bool is_old = CALL(row_at)(image, len, from, &row);
        if (!is_old && next == count) break;
        int order = next == count ? -1 : is_old ? OWN(order)(&row, &changes[next].row) : 1;
        from += order <= 0;
        if (order >= 0) row = changes[next].row;
        if (order >= 0 && changes[next++].removes) continue;
        bool is_there = CALL(row_at)(made, made_len, to++, &found);
        need(is_there && !OWN(order)(&row, &found) && row.value == found.value, "another row is merged");
    }
    need(!CALL(row_at)(made, made_len, to, &found), "a row more is merged");
}

static void OWN(need_lengths)(const uint8_t *image, size_t len, size_t count, size_t changes, size_t own) {
    size_t many = (size_t)1 << 32, most = CALL(image_len)(many - 1, 0) + (1 << 23);
    need(CALL(merge_len)(image, len, changes, own) == CALL(image_len)(count + changes, own),
         "another length of what is merged");
    need(CALL(merge_len)(image, len, many - 1 - count, 0) == most, "what fits has another length");
    need(!CALL(merge_len)(image, len, many - count, 0), "too many changes have a length");
    need(!CALL(merge_len)(image, len, 1, SIZE_MAX), "too many bytes have a length");
}

// Merges changes of the first network, of a row's and of the last one into an image, or into other bytes, of which an
// image comes too, unless that row's network is none. All of `removes` but 0 says that the network goes.
static void OWN(merge)(const uint8_t *image, size_t len, bool is_image) {
    CALL(change) changes[3] = {{.row = {.value = 5}}}, last = {.row = {.bits = BITS, .value = 6}};
    memset(&last.row.first, 0xff, sizeof last.row.first);
    size_t count = CALL(len)(image, len), times = 1, own = draw() % 4, at = SIZE_MAX;
    CALL(row) *row = &changes[1].row;
    if (count && CALL(row_at)(image, len, draw() % count, row) && OWN(order)(&changes[0].row, row) < 0 &&
        OWN(order)(row, &last.row) < 0)
        times++, row->value++, row->link = (uint32_t)draw();
    changes[times++] = last;
    for (size_t k = 0; k < times; k++) changes[k].removes = draw() % 2 ? 1u << draw() % 32 : 0;
    if (is_image) OWN(need_lengths)(image, len, count, times, own);
    size_t room = CALL(merge_len)(image, len, times, own);
    need(room && room <= MOST_MERGED, "another length of a few changes");
    const uint8_t *payload = (const uint8_t *)"own";
    uint8_t *out = merged_end - room;
    memset(out, 0xa5, room);
    need(CALL(merge)(image, len, changes, times, payload, own, out + 1, room - 1, &at) == NIFAZOMBI_ERROR_SHORT,
         "a short buffer isn't told");
    uint32_t wrong = CALL(merge)(image, len, changes, times, payload, own, out, room, &at);
    need(!wrong || (!is_image && wrong == NIFAZOMBI_ERROR_OUT_OF_ORDER && at == 1), "changes in order aren't merged");
    size_t made = wrong ? 0 : at;
    need(made <= room, "more is merged than there is room for");
    for (size_t k = made; k < room; k++) need(out[k] == 0xa5, "bytes behind what is merged don't stay");
    add(made);
    if (!wrong) {
        nifazombi_span kept = {0, 0};
        need(!CALL(check)(out, made, &at), "what is merged is no image");
        need(nifazombi_payload(out, made, &kept) && kept.count == own && !memcmp(out + kept.first, payload, own),
             "another payload is merged");
        if (is_image) OWN(need_merged)(image, len, changes, times, out, made);
    }
    changes[0] = changes[times - 1];
    need(CALL(merge)(image, len, changes, times, payload, own, out, room, &at) == NIFAZOMBI_ERROR_OUT_OF_ORDER &&
             at == 1, "a change out of order is merged");
}
