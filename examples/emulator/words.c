/* Which words there are, of what kind each is, and the code that they stand in (docs/instructions.md). */

static enum kind kind_of_operate(unsigned opcode, unsigned function)
{
    static const byte arithmetic[] = {0x00, 0x02, 0x09, 0x0B, 0x0F, 0x12, 0x1B, 0x1D, 0x20, 0x22, 0x29, 0x2B, 0x2D, 0x32, 0x3B, 0x3D,
                                      0x40, 0x49, 0x4D, 0x60, 0x69, 0x6D};
    static const byte logic[] = {0x00, 0x08, 0x14, 0x16, 0x20, 0x24, 0x26, 0x28, 0x40, 0x44, 0x46, 0x48, 0x61, 0x64, 0x66, 0x6C};
    static const byte shifts[] = {0x02, 0x06, 0x0B, 0x12, 0x16, 0x1B, 0x22, 0x26, 0x2B, 0x30, 0x31, 0x32, 0x34, 0x36, 0x39, 0x3B, 0x3C,
                                  0x52, 0x57, 0x5A, 0x62, 0x67, 0x6A, 0x72, 0x77, 0x7A};
    static const byte products[] = {0x00, 0x20, 0x30, 0x40, 0x60};
    static const byte counts[] = {0x00, 0x01, 0x30, 0x32, 0x33};
    static const struct { const byte *functions; size_t count; } rows[] = {
        {arithmetic, sizeof arithmetic}, {logic, sizeof logic}, {shifts, sizeof shifts}, {products, sizeof products}};
    const byte *known = opcode == 0x1C ? counts : rows[opcode - 0x10].functions;
    size_t count = opcode == 0x1C ? sizeof counts : rows[opcode - 0x10].count;
    if (!memchr(known, (int)function, count))
        return NO_WORD;
    if (opcode == 0x10 && (function == 0x40 || function == 0x49 || function == 0x60 || function == 0x69))
        return TRAPPING;
    return opcode == 0x13 && (function == 0x40 || function == 0x60) ? TRAPPING : PLAIN;
}

/* Whether the fields of an operate word that mean nothing are as the table has them. */
static int is_spelled(const struct word *w)
{
    unsigned is_count = w->opcode == 0x1C && w->function >= 0x30;
    if (!w->has_literal && (w->number >> 13 & 7))
        return 0;
    if ((w->opcode == 0x1C || (w->opcode == 0x11 && (w->function == 0x61 || w->function == 0x6C))) && w->ra != 31)
        return 0;
    if (is_count && (w->has_literal || m.level < 2))
        return 0;
    return !(w->opcode == 0x11 && w->function == 0x6C) || (w->has_literal && w->literal == 1);
}

static enum kind kind_of_misc(const struct word *w)
{
    switch (w->number & 0xFFFF) {
    case 0x0000: case 0x0400: /* trapb, excb */
        return w->ra == 31 && w->rb == 31 ? BARRIER : NO_WORD;
    case 0x4000: case 0x4400: /* mb, wmb */
        return w->ra == 31 && w->rb == 31 ? PLAIN : NO_WORD;
    case 0x8000: case 0xA000: /* fetch, fetch_m */
        return w->ra == 31 ? PLAIN : NO_WORD;
    default:
        return NO_WORD;
    }
}

static enum kind kind_of(const struct word *w)
{
    switch (w->opcode) {
    case 0x00:
        switch (w->number) {
        case 0x80: case 0x81: case 0x83: case 0x86: case 0x9E: case 0x9F: case 0xAA:
            return BARRIER;
        default:
            return NO_WORD;
        }
    case 0x08: case 0x09: /* lda, ldah */
        return PLAIN;
    case 0x0A: case 0x0B: case 0x0C: case 0x28: case 0x29: /* ldbu, ldq_u, ldwu, ldl, ldq */
        return w->ra == 31 ? PLAIN : LOAD;
    case 0x0D: case 0x0E: case 0x0F: case 0x2C: case 0x2D: /* stw, stb, stq_u, stl, stq */
        return STORE;
    case 0x2A: case 0x2B: /* ldl_l, ldq_l */
        return LOCKED_LOAD;
    case 0x2E: case 0x2F: /* stl_c, stq_c */
        return CONDITIONAL_STORE;
    case 0x10: case 0x11: case 0x12: case 0x13: case 0x1C:
        return is_spelled(w) ? kind_of_operate(w->opcode, w->function) : NO_WORD;
    case 0x18:
        return kind_of_misc(w);
    case 0x1A: /* jmp, jsr, ret, jsr_coroutine */
    case 0x30: case 0x34: /* br, bsr */
    case 0x38: case 0x39: case 0x3A: case 0x3B: case 0x3C: case 0x3D: case 0x3E: case 0x3F:
        return TURN;
    default:
        return NO_WORD;
    }
}

static struct word word_of(unsigned number)
{
    struct word w = {.number = number, .opcode = number >> 26, .function = number >> 5 & 0x7F, .ra = number >> 21 & 31,
                     .rb = number >> 16 & 31, .rc = number & 31};
    w.has_literal = number >> 12 & 1;
    w.literal = number >> 13 & 0xFF;
    w.displacement = (s64)extended(number, 16);
    w.distance = (s64)extended(number, 21) * 4;
    w.kind = kind_of(&w);
    return w;
}

static struct word word_in(u64 place)
{
    return word_of((unsigned)little(m.code + 4 * place, 4));
}

/* The place of a code address, or the number of words where it is none. */
static u64 place_of(u64 address)
{
    u64 distance = address - m.code_base;
    return address % 4 || address < m.code_base || distance / 4 >= m.words ? m.words : distance / 4;
}
