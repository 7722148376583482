/* Reads an image, or refuses it by the first rule that it breaks (docs/images.md). */

static void bad_image(int kind, u64 first, u64 second)
{
    stop_with(NO_IMAGE, "image kind %d first %llu second %llu", kind, (unsigned long long)first, (unsigned long long)second);
}

struct segment { u64 base, data, zeroed; };

static int shares(u64 base, u64 size, u64 other, u64 other_size)
{
    return size && other_size && base < other + other_size && other < base + size;
}

/* The least bad field, or 0. */
static int bad_field(u64 base, u64 entry, u64 words, u64 stack, u64 level, const struct segment *part, unsigned count)
{
    u64 bytes = 0;
    if (base % PAGE || base >= TOP)
        return 1;
    for (unsigned n = 0; n < count; n++)
        if (part[n].base % PAGE || part[n].base >= TOP || (n && part[n].base <= part[n - 1].base))
            return 2;
    if (words == 0 || words > MOST_WORDS || base + 4 * words > TOP)
        return 3;
    for (unsigned n = 0; n < count; n++)
        if (part[n].data > MOST_DATA)
            return 4;
    for (unsigned n = 0; n < count; n++)
        bytes += part[n].data + part[n].zeroed;
    if (bytes > MOST_DATA)
        return 5;
    for (unsigned n = 0; n < count; n++)
        if (part[n].base + part[n].data + part[n].zeroed > TOP)
            return 5;
    if (stack < LEAST_STACK || stack > MOST_STACK || stack % 16)
        return 6;
    if (entry % 4 || entry < base || entry >= base + 4 * words)
        return 7;
    if (shares(base, 4 * words, TOP - stack, stack))
        return 8;
    for (unsigned n = 0; n < count; n++) {
        u64 size = part[n].data + part[n].zeroed;
        if (shares(part[n].base, size, base, 4 * words) || shares(part[n].base, size, TOP - stack, stack))
            return 8;
        for (unsigned k = 0; k < n; k++)
            if (shares(part[n].base, size, part[k].base, part[k].data + part[k].zeroed))
                return 8;
    }
    return level == 1 || level == 2 ? 0 : 9;
}

static void add_region(u64 base, const byte *data, u64 count, u64 zeroed, int is_writable)
{
    struct region *r = &m.region[m.regions++];
    *r = (struct region){base, count + zeroed, calloc(count + zeroed + 1, 1), is_writable};
    if (!r->bytes)
        stop_with(12, "no memory");
    memcpy(r->bytes, data, count);
}

/* Refuses what is no word, and makes the regions of an image that is good else. Its data stand behind its code. */
static void lay_out(u64 words, const struct segment *part, unsigned count, u64 stack)
{
    for (u64 place = 0; place < words; place++)
        if (word_in(place).kind == NO_WORD)
            bad_image(5, place, little(m.code + 4 * place, 4));
    add_region(m.code_base, m.code, 4 * words, 0, 0);
    const byte *data = m.code + 4 * words;
    for (unsigned n = 0; n < count; n++) {
        add_region(part[n].base, data, part[n].data, part[n].zeroed, 1);
        data += part[n].data;
    }
    add_region(TOP - stack, data, 0, stack, 1);
}

static void load_image(struct bytes file)
{
    int is_second = file.count >= 8 && !memcmp(file.at, "ALPHAIM2", 8);
    u64 head = is_second ? 40 : 48, entry, words, stack, wanted;
    unsigned count = 1, field;
    struct segment part[MOST_SEGMENTS];
    if (file.count < head)
        bad_image(1, file.count, 0);
    if (!is_second && memcmp(file.at, "ALPHAIM1", 8))
        bad_image(2, 0, 0);
    m.code_base = little(file.at + 8, 8);
    if (is_second) {
        entry = little(file.at + 16, 8), words = little(file.at + 24, 4), stack = little(file.at + 28, 4);
        m.level = (int)little(file.at + 32, 4), count = (unsigned)little(file.at + 36, 4);
        if (count > MOST_SEGMENTS)
            bad_image(3, 10, 0);
        head += 16 * count;
        if (file.count < head)
            bad_image(1, file.count, 0);
        for (unsigned n = 0; n < count; n++) {
            const byte *at = file.at + 40 + 16 * n;
            part[n] = (struct segment){little(at, 8), little(at + 8, 4), little(at + 12, 4)};
        }
    } else {
        m.level = 1, entry = little(file.at + 24, 8), words = little(file.at + 32, 4), stack = little(file.at + 44, 4);
        part[0] = (struct segment){little(file.at + 16, 8), little(file.at + 36, 4), little(file.at + 40, 4)};
    }
    field = (unsigned)bad_field(m.code_base, entry, words, stack, (unsigned)m.level, part, count);
    if (field)
        bad_image(3, field, 0);
    wanted = head + 4 * words;
    for (unsigned n = 0; n < count; n++)
        wanted += part[n].data;
    if (file.count != wanted)
        bad_image(4, file.count, wanted);
    m.code = file.at + head, m.words = words;
    lay_out(words, part, count, stack);
    m.pc = m.reg[27] = entry, m.reg[30] = TOP;
}
