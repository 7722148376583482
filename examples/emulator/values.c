/* What operate instructions give, and which /V words overflow (docs/instructions.md). */

static u64 byte_mask(unsigned bits)
{
    u64 mask = 0;
    for (int n = 0; n < 8; n++)
        if (bits >> n & 1)
            mask |= 0xFFull << 8 * n;
    return mask;
}

static u64 compared_bytes(u64 a, u64 b)
{
    u64 bits = 0;
    for (int n = 0; n < 8; n++)
        bits |= (u64)((byte)(a >> 8 * n) >= (byte)(b >> 8 * n)) << n;
    return bits;
}

static u64 longword(u64 value)
{
    return extended(value, 32);
}

/* Byte instructions, by the size in bytes and the number of bytes that they go on by. */
static u64 extract_high(u64 a, u64 b, unsigned size)
{
    return a << 8 * (-b & 7) & byte_mask((1 << size) - 1);
}

static u64 insert_low(u64 a, u64 b, unsigned size)
{
    return (a & byte_mask((1 << size) - 1)) << 8 * (b & 7);
}

static u64 insert_high(u64 a, u64 b, unsigned size)
{
    unsigned n = b & 7;
    return n == 0 ? 0 : (a & byte_mask((1 << size) - 1)) >> 8 * (8 - n);
}

static u64 extract_low(u64 a, u64 b, unsigned size)
{
    return a >> 8 * (b & 7) & byte_mask((1 << size) - 1);
}

static u64 mask_low(u64 a, u64 b, unsigned size)
{
    return a & ~byte_mask(((1u << size) - 1) << (b & 7) & 0xFF);
}

static u64 mask_high(u64 a, u64 b, unsigned size)
{
    return a & ~byte_mask(((1u << size) - 1) << (b & 7) >> 8);
}

static int is_true(unsigned test, u64 value)
{
    s64 number = (s64)value;
    switch (test) {
    case 0x39: case 0x24: return number == 0; /* beq, cmoveq */
    case 0x3D: case 0x26: return number != 0; /* bne, cmovne */
    case 0x3A: case 0x44: return number < 0; /* blt, cmovlt */
    case 0x3B: case 0x64: return number <= 0; /* ble, cmovle */
    case 0x3F: case 0x66: return number > 0; /* bgt, cmovgt */
    case 0x3E: case 0x46: return number >= 0; /* bge, cmovge */
    case 0x3C: case 0x14: return value & 1; /* blbs, cmovlbs */
    default: return !(value & 1); /* blbc, cmovlbc */
    }
}

static u64 result(const struct word *w, u64 a, u64 b, u64 c)
{
    switch (w->opcode << 8 | w->function) {
    case 0x1000: case 0x1040: return longword(a + b); /* addl */
    case 0x1002: return longword(4 * a + b); /* s4addl */
    case 0x1009: case 0x1049: return longword(a - b); /* subl */
    case 0x100B: return longword(4 * a - b); /* s4subl */
    case 0x100F: return compared_bytes(a, b); /* cmpbge */
    case 0x1012: return longword(8 * a + b); /* s8addl */
    case 0x101B: return longword(8 * a - b); /* s8subl */
    case 0x101D: return a < b; /* cmpult */
    case 0x1020: case 0x1060: return a + b; /* addq */
    case 0x1022: return 4 * a + b; /* s4addq */
    case 0x1029: case 0x1069: return a - b; /* subq */
    case 0x102B: return 4 * a - b; /* s4subq */
    case 0x102D: return a == b; /* cmpeq */
    case 0x1032: return 8 * a + b; /* s8addq */
    case 0x103B: return 8 * a - b; /* s8subq */
    case 0x103D: return a <= b; /* cmpule */
    case 0x104D: return (s64)a < (s64)b; /* cmplt */
    case 0x106D: return (s64)a <= (s64)b; /* cmple */
    case 0x1100: return a & b; /* and */
    case 0x1108: return a & ~b; /* bic */
    case 0x1120: return a | b; /* bis */
    case 0x1128: return a | ~b; /* ornot */
    case 0x1140: return a ^ b; /* xor */
    case 0x1148: return a ^ ~b; /* eqv */
    case 0x1161: return b & ~(m.level == 2 ? 5ull : 1ull); /* amask */
    case 0x116C: return (u64)m.level; /* implver */
    case 0x1202: return mask_low(a, b, 1); /* mskbl */
    case 0x1206: return extract_low(a, b, 1); /* extbl */
    case 0x120B: return insert_low(a, b, 1); /* insbl */
    case 0x1212: return mask_low(a, b, 2); /* mskwl */
    case 0x1216: return extract_low(a, b, 2); /* extwl */
    case 0x121B: return insert_low(a, b, 2); /* inswl */
    case 0x1222: return mask_low(a, b, 4); /* mskll */
    case 0x1226: return extract_low(a, b, 4); /* extll */
    case 0x122B: return insert_low(a, b, 4); /* insll */
    case 0x1230: return a & ~byte_mask((unsigned)b); /* zap */
    case 0x1231: return a & byte_mask((unsigned)b); /* zapnot */
    case 0x1232: return mask_low(a, b, 8); /* mskql */
    case 0x1234: return a >> (b & 63); /* srl */
    case 0x1236: return extract_low(a, b, 8); /* extql */
    case 0x1239: return a << (b & 63); /* sll */
    case 0x123B: return insert_low(a, b, 8); /* insql */
    case 0x123C: return (u64)((s64)a >> (b & 63)); /* sra */
    case 0x1252: return mask_high(a, b, 2); /* mskwh */
    case 0x1257: return insert_high(a, b, 2); /* inswh */
    case 0x125A: return extract_high(a, b, 2); /* extwh */
    case 0x1262: return mask_high(a, b, 4); /* msklh */
    case 0x1267: return insert_high(a, b, 4); /* inslh */
    case 0x126A: return extract_high(a, b, 4); /* extlh */
    case 0x1272: return mask_high(a, b, 8); /* mskqh */
    case 0x1277: return insert_high(a, b, 8); /* insqh */
    case 0x127A: return extract_high(a, b, 8); /* extqh */
    case 0x1300: case 0x1340: return longword(a * b); /* mull */
    case 0x1320: case 0x1360: return a * b; /* mulq */
    case 0x1330: return (u64)((unsigned __int128)a * b >> 64); /* umulh */
    case 0x1C00: return extended(b, 8); /* sextb */
    case 0x1C01: return extended(b, 16); /* sextw */
    case 0x1C30: return (u64)__builtin_popcountll(b); /* ctpop */
    case 0x1C32: return b ? (u64)__builtin_clzll(b) : 64; /* ctlz */
    case 0x1C33: return b ? (u64)__builtin_ctzll(b) : 64; /* cttz */
    default: return is_true(w->function, a) ? b : c; /* a conditional move */
    }
}

/* What a /V word gives exactly, signed. */
static wide exact(const struct word *w, u64 a, u64 b)
{
    switch (w->opcode << 8 | w->function) {
    case 0x1040: return (wide)(int32_t)a + (int32_t)b; /* addl/v */
    case 0x1049: return (wide)(int32_t)a - (int32_t)b; /* subl/v */
    case 0x1060: return (wide)(s64)a + (s64)b; /* addq/v */
    case 0x1069: return (wide)(s64)a - (s64)b; /* subq/v */
    case 0x1340: return (wide)(int32_t)a * (int32_t)b; /* mull/v */
    default: return (wide)(s64)a * (s64)b; /* mulq/v */
    }
}

static u64 operand(const struct word *w)
{
    return w->has_literal ? w->literal : m.reg[w->rb];
}

static int is_long(const struct word *w)
{
    return w->function < 0x60;
}

static int overflows(const struct word *w)
{
    wide value = exact(w, m.reg[w->ra], operand(w)), bound = (wide)1 << (is_long(w) ? 31 : 63);
    return w->kind == TRAPPING && (value < -bound || value >= bound);
}
