/* Memory, and the steps of a run in which each overflow is completed at once (docs/machines.md). */

/* ---- memory */

static byte *bytes_at(u64 address, u64 count, int is_written)
{
    for (int n = 0; n < m.regions; n++) {
        struct region *r = &m.region[n];
        if (address >= r->base && address - r->base < r->size && count <= r->size - (address - r->base))
            return is_written && !r->is_writable ? NULL : r->bytes + (address - r->base);
    }
    return NULL;
}

static int size_of(const struct word *w)
{
    switch (w->opcode) {
    case 0x0A: case 0x0E: return 1; /* ldbu, stb */
    case 0x0C: case 0x0D: return 2; /* ldwu, stw */
    case 0x28: case 0x2A: case 0x2C: case 0x2E: return 4; /* ldl, ldl_l, stl, stl_c */
    default: return 8;
    }
}

static u64 address_of(const struct word *w)
{
    u64 address = m.reg[w->rb] + (u64)w->displacement;
    return w->opcode == 0x0B || w->opcode == 0x0F ? address & ~7ull : address; /* ldq_u, stq_u */
}

static int is_store(const struct word *w)
{
    return w->kind == STORE || w->kind == CONDITIONAL_STORE;
}

/* How the word would end the program by its access; NONE where it makes none, or where it goes well. */
static enum ending fault_of(const struct word *w)
{
    if (w->kind != LOAD && w->kind != LOCKED_LOAD && !is_store(w))
        return NONE;
    if (address_of(w) % (u64)size_of(w))
        return ALIGN;
    return bytes_at(address_of(w), (u64)size_of(w), is_store(w)) ? NONE : ACCESS;
}

/* ---- steps */

static void end_by(enum ending end, u64 first, u64 second)
{
    m.end = end, m.first = first, m.second = second;
}

static void set(unsigned number, u64 value)
{
    if (number != 31)
        m.reg[number] = value;
}

static void turn(const struct word *w, const u64 *drawn)
{
    u64 next = m.pc + 4, target = next + (u64)w->distance;
    if (w->opcode == 0x1A)
        target = m.reg[w->rb] & ~3ull;
    else if (w->opcode != 0x30 && w->opcode != 0x34 && !is_true(w->opcode, m.reg[w->ra]))
        target = next;
    if (w->opcode == 0x1A || w->opcode == 0x30 || w->opcode == 0x34)
        set(w->ra, drawn ? *drawn : next);
    m.pc = target;
}

static void access_memory(const struct word *w, const u64 *drawn)
{
    u64 address = address_of(w), loaded;
    int size = size_of(w), is_stored = w->kind == STORE || (m.is_locked && m.lock / 16 == address / 16);
    if (is_store(w)) {
        if (is_stored)
            put_little(bytes_at(address, (u64)size, 1), drawn ? *drawn : m.reg[w->ra], size);
        if (w->kind == CONDITIONAL_STORE) {
            set(w->ra, drawn ? *drawn : (u64)is_stored);
            m.is_locked = 0;
        }
        return;
    }
    loaded = little(bytes_at(address, (u64)size, 0), size);
    set(w->ra, drawn ? *drawn : size == 4 ? longword(loaded) : loaded);
    if (w->kind == LOCKED_LOAD)
        m.is_locked = 1, m.lock = address;
}

/* Executes a word that is no barrier, faults nowhere and completes nothing. While a trap is pending its destination,
 * or the bytes that it stores, are those of `drawn`. */
static void execute(const struct word *w, const u64 *drawn)
{
    if (w->kind == TURN) {
        turn(w, drawn);
        return;
    }
    if (w->kind == LOAD || w->kind == LOCKED_LOAD || is_store(w))
        access_memory(w, drawn);
    else if (w->opcode == 0x08 || w->opcode == 0x09) /* lda, ldah */
        set(w->ra, drawn ? *drawn : m.reg[w->rb] + (u64)w->displacement * (w->opcode == 0x09 ? 65536 : 1));
    else if ((w->opcode >= 0x10 && w->opcode <= 0x13) || w->opcode == 0x1C)
        set(w->rc, drawn ? *drawn : result(w, m.reg[w->ra], operand(w), m.reg[w->rc]));
    m.pc += 4;
}

static void note_overflow(u64 address)
{
    if (notes_overflows)
        fprintf(stderr, "overflow %016llx\n", (unsigned long long)address);
}

/* Completes the /V word at an address by the registers as they are, logs it, and goes on behind it. */
static void complete(u64 address)
{
    struct word w = word_in(place_of(address));
    u64 value = result(&w, m.reg[w.ra], operand(&w), 0);
    if (m.completion == SATURATE && overflows(&w)) {
        int bits = is_long(&w) ? 32 : 64;
        value = exact(&w, m.reg[w.ra], operand(&w)) < 0 ? extended(1ull << (bits - 1), bits) : (1ull << (bits - 1)) - 1;
    }
    set(w.rc, value);
    note_overflow(address);
    m.is_locked = 0;
    m.pc = address + 4;
}

static void call_system(void)
{
    u64 number = m.reg[0], descriptor = m.reg[16], address = m.reg[17], count = m.reg[18];
    int is_read = number == 3;
    unsigned error = 0;
    if (number != 3 && number != 4)
        error = 78;
    else if (descriptor != (is_read ? 0 : 1))
        error = 9;
    else if (count && !bytes_at(address, count, is_read))
        error = 14;
    if (!error && is_read) {
        u64 left = m.input.count - m.taken;
        count = count < left ? count : left;
        if (count)
            memcpy(bytes_at(address, count, 1), m.input.at + m.taken, count);
        m.taken += count;
    } else if (!error && count) {
        append(&m.output, bytes_at(address, count, 0), count);
    }
    set(0, error ? error : count);
    set(19, error != 0);
    m.is_locked = 0;
}

static void note_barrier(void)
{
    fprintf(stderr, "barrier %016llx\n", (unsigned long long)m.pc);
    for (int n = 0; n < 32; n++)
        fprintf(stderr, "%016llx%c", (unsigned long long)m.reg[n], n % 4 == 3 ? '\n' : ' ');
}

static void pass_barrier(const struct word *w)
{
    if (w->opcode == 0x00) {
        switch (w->number) {
        case 0x80: end_by(SIGNAL, 0, m.pc); return; /* bpt */
        case 0x81: end_by(SIGNAL, 1, m.pc); return; /* bugchk */
        case 0xAA: end_by(SIGNAL, 2, m.pc); return; /* gentrap */
        case 0x9E: set(0, m.unique); break; /* rdunique */
        case 0x9F: m.unique = m.reg[16]; break; /* wrunique */
        case 0x83: /* callsys */
            if (m.reg[0] == 1) {
                end_by(EXIT, m.reg[16], 0);
                return;
            }
            call_system();
            break;
        default: break; /* imb */
        }
    }
    m.pc += 4;
    if (is_watched)
        note_barrier();
}

/* The word at the PC; NO_WORD where there is none. */
static struct word here(void)
{
    u64 place = place_of(m.pc);
    return place == m.words ? (struct word){.kind = NO_WORD} : word_in(place);
}

/* A step while nothing is pending, which completes an overflow at once. */
static void step(void)
{
    struct word w = here();
    enum ending fault = fault_of(&w);
    if (w.kind == NO_WORD)
        end_by(FETCH, m.pc, 0);
    else if (fault != NONE)
        end_by(fault, m.pc, address_of(&w));
    else if (w.kind == BARRIER)
        pass_barrier(&w);
    else if (!overflows(&w))
        execute(&w, NULL);
    else if (m.completion == STOP)
        end_by(OVERFLOW, m.pc, 0);
    else
        complete(m.pc);
}
