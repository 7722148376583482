/* The plain work of check, link, dis, run and asm in C, for a few instructions: a scale for docs/speed.md, which
   bench/counted.py counts. It tells no fault but that there is one, and nothing of it is proved. */
#include <stdint.h>
#include <stdio.h>
#include <stdlib.h>
#include <string.h>

#define ROWS(X) X(LDA, "lda ", 0x08, 0) X(LDQ, "ldq ", 0x29, 0) X(STQ, "stq ", 0x2d, 0) X(BR, "br ", 0x30, 0) \
    X(BEQ, "beq ", 0x39, 0) X(ADDQ, "addq ", 0x10, 0x20) X(BIS, "bis ", 0x11, 0x20) X(ADDQV, "addq/v ", 0x10, 0x60)
#define NUMBER(row, ...) row,
#define ENTRY(row, name, opcode, function) {name, sizeof name - 1, (uint32_t)opcode << 26 | function << 5},
enum { OUTSIDE, ROWS(NUMBER) COUNT };
static const struct { char name[8]; uint8_t len; uint32_t word; } rows[] = {{"", 0, 0}, ROWS(ENTRY)};
static struct { uint8_t row; uint32_t word; } insns[1 << 18];
static uint8_t row_at[64][128], row_of[256], in[1 << 24], out[1 << 24], stack[1 << 16];
static char digits[1000][4];
static uint64_t keys[COUNT], r[32] = {[30] = sizeof stack / 2};
static uint32_t words;

static void need(int holds) { if (!holds) exit(1); }
static int reg(uint32_t word, int low) { return word >> low & 31; }
static int64_t disp(uint32_t word, int bits) { return (int32_t)(word << (32 - bits)) >> (32 - bits); }
static uint8_t slot(uint64_t key) { return key * 0x9e3779b97f4a7c15 >> 56; }

static void read_words(const uint8_t *code) {
    for (uint32_t n = 0, w; n < words; n++) {
        memcpy(&w, code + 4 * n, 4);
        uint8_t row = row_at[w >> 26][w >> 5 & 127];
        need(row != OUTSIDE);
        if (row >= ADDQ && !(w & 0x1000)) need(!(w & 0xe000));
        insns[n].row = row, insns[n].word = w;
    }
}

static uint8_t *put_number(uint8_t *end, uint32_t n) {
    if (n >= 1000) end = put_number(end, n / 1000), n = n % 1000 + 1000;
    memcpy(end, digits[n % 1000] + (n < 10 ? 2 : n < 100 ? 1 : 0), 4);
    return end + (n < 10 ? 1 : n < 100 ? 2 : 3);
}
static uint8_t *put(uint8_t *end, const char *mark, uint32_t len, uint32_t n) {
    return memcpy(end, mark, 4), put_number(end + len, n);
}
static uint8_t *put_line(uint8_t *end, uint8_t row, uint32_t w) {
    memcpy(end, rows[row].name, 8);
    end = put(end + rows[row].len, "$   ", 1, reg(w, 21));
    int32_t by = row < BR ? disp(w, 16) : 4 + 4 * disp(w, 21);
    if (row < BR)
        end = put(put(end, by < 0 ? ",-  " : ",   ", by < 0 ? 2 : 1, abs(by)), "($  ", 2, reg(w, 16)), *end++ = ')';
    else if (row < ADDQ) end = put(end, by < 0 ? ",.- " : ",.+ ", 3, abs(by));
    else {
        end = w & 0x1000 ? put(end, ",   ", 1, w >> 13 & 255) : put(end, ",$  ", 2, reg(w, 16));
        end = put(end, ",$  ", 2, reg(w, 0));
    }
    return *end++ = '\n', end;
}

static const uint8_t *text = in;
static int takes(uint8_t c) { return *text == c ? text++, 1 : 0; }
static uint32_t take_number(uint32_t limit) {
    uint32_t n = *text++ - '0', digit;
    for (need(n < 10); (digit = *text - '0') < 10 && n < limit; text++) n = 10 * n + digit;
    return need(n < limit), n;
}
static uint32_t take_reg(uint8_t mark) { return need(takes(mark)), need(takes('$')), take_number(32); }
static uint32_t take_signed(int32_t limit) { return takes('-') ? -take_number(limit + 1) : take_number(limit); }
static uint32_t take_line(void) {
    uint64_t key = 0;
    do key = key << 8 | *text; while (*text++ > ' ');
    uint8_t row = row_of[slot(key)];
    need(row && keys[row] == key && takes('$'));
    uint32_t w = rows[row].word | take_number(32) << 21;
    need(takes(','));
    if (row < BR) w |= take_signed(0x8000) & 0xffff, w |= take_reg('(') << 16, need(takes(')'));
    else if (row < ADDQ)
        need(takes('.') && (takes('+') || *text == '-')), w |= (take_signed(0x400000) - 4) / 4 & 0x1fffff;
    else w |= takes('$') ? take_number(32) << 16 : take_number(256) << 13 | 0x1000, w |= take_reg(',');
    return need(takes('\n')), w;
}

static uint8_t *at(uint32_t w) {
    uint64_t from = r[reg(w, 16)] + disp(w, 16);
    return need(from <= sizeof stack - 8 && from % 8 == 0), stack + from;
}
static uint64_t source(uint32_t w) { return w & 0x1000 ? w >> 13 & 255 : r[reg(w, 16)]; }
static void set(int n, uint64_t value) { r[n] = value, r[31] = 0; }
static void run(uint64_t steps) {
    for (uint64_t place = 0, left = steps; left; left--, place++) {
        need(place < words);
        uint32_t w = insns[place].word;
        switch (insns[place].row) {
        case LDA: set(reg(w, 21), r[reg(w, 16)] + disp(w, 16)); break;
        case LDQ: set(reg(w, 21), *(uint64_t *)at(w)); break;
        case STQ: *(uint64_t *)at(w) = r[reg(w, 21)]; break;
        case BR: set(reg(w, 21), 4 * place + 4), place += disp(w, 21); break;
        case BEQ: if (r[reg(w, 21)] == 0) place += disp(w, 21); break;
        case ADDQ: set(reg(w, 0), r[reg(w, 21)] + source(w)); break;
        case BIS: set(reg(w, 0), r[reg(w, 21)] | source(w)); break;
        default: need(0);
        }
    }
}

static void make_tables(void) {
    for (uint8_t row = 1; row < COUNT; row++) {
        for (int n = 0; n < rows[row].len; n++) keys[row] = keys[row] << 8 | (uint8_t)rows[row].name[n];
        need(!row_of[slot(keys[row])]), row_of[slot(keys[row])] = row;
        for (uint32_t f = 0; f < 128; f++)
            if (row < ADDQ || (rows[row].word >> 5 & 127) == f) row_at[rows[row].word >> 26][f] = row;
    }
    for (int n = 0; n < 1000; n++)
        digits[n][0] = '0' + n / 100, digits[n][1] = '0' + n / 10 % 10, digits[n][2] = '0' + n % 10;
}

int main(int count, char **arguments) {
    make_tables();
    char command = count > 1 ? arguments[1][0] : 0;
    size_t size = fread(in, 1, sizeof in - 1, stdin);
    uint8_t *end = out;
    if (command == 'a') for (uint32_t w; text < in + size; end += 4) w = take_line(), memcpy(end, &w, 4);
    else memcpy(&words, in + 32, 4), need(words <= 1 << 18 && 48 + 4 * words <= size), read_words(in + 48);
    if (command == 'c') for (uint32_t n = 0; n < words; n++) need(insns[n].row != ADDQV);
    if (command == 'l') for (uint32_t n = 0; n < words; n++, end += 4) memcpy(end, &insns[n].word, 4);
    if (command == 'd') for (uint32_t n = 0; n < words; n++) end = put_line(end, insns[n].row, insns[n].word);
    if (command == 'r') run(strtoull(arguments[2], NULL, 10));
    return fwrite(out, 1, end - out, stdout) != (size_t)(end - out);
}
