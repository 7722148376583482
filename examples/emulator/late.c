/* Traps that come late (docs/machines.md): a /V word that overflows leaves its trap pending, further words are
 * executed, each with any value in its destination, and then the handler looks back for the word to complete. */

static unsigned bit(unsigned number)
{
    return number == 31 ? 0 : 1u << number;
}

/* The word at the PC overflows: its trap is pending, and its destination has any value. */
static void trigger(u64 value)
{
    struct word w = here();
    m.is_pending = 1, m.mask = bit(w.rc), m.waited = 0;
    execute(&w, &value);
}

static int can_wait(void)
{
    struct word w = here();
    return w.kind != NO_WORD && w.kind != BARRIER && fault_of(&w) == NONE && m.waited < MOST_WAITED;
}

static void wait_for(int adds, u64 value)
{
    struct word w = here();
    m.waited++;
    if (adds)
        m.mask |= bit(w.rc);
    execute(&w, &value);
}

/* Whether the handler finds a word to complete, and its address. */
static int scan(u64 *address)
{
    u64 place = m.pc == m.code_base + 4 * m.words ? m.words : place_of(m.pc);
    unsigned left = m.mask;
    if (m.mask == 0 || (place == m.words && m.pc != m.code_base + 4 * m.words))
        return 0;
    while (place-- > 0) {
        struct word w = word_in(place);
        if (w.kind == BARRIER || w.kind == TURN)
            return 0;
        if (w.kind == TRAPPING)
            left &= ~bit(w.rc);
        if (w.kind == TRAPPING && left == 0) {
            *address = m.code_base + 4 * place;
            return 1;
        }
    }
    return 0;
}

static void report(void)
{
    u64 address;
    if (!scan(&address)) {
        end_by(LOST, m.pc, m.mask);
    } else if (m.completion == STOP) {
        end_by(OVERFLOW, address, 0);
    } else {
        complete(address);
    }
    m.is_pending = 0;
}

/* ---- runs by choices */

static struct { struct bytes file; u64 at, seed; int is_seeded; } choices;

static u64 chosen(void)
{
    u64 value = 0;
    if (choices.is_seeded) { /* the generator splitmix64 */
        value = choices.seed += 0x9E3779B97F4A7C15ull;
        value = (value ^ value >> 30) * 0xBF58476D1CE4E5B9ull;
        value = (value ^ value >> 27) * 0x94D049BB133111EBull;
        return value ^ value >> 31;
    }
    for (int n = 0; n < 8 && choices.at < choices.file.count; n++)
        value |= (u64)choices.file.at[choices.at++] << 8 * n;
    return value;
}

static void keep_item(byte kind, byte flag, u64 value)
{
    if (kind == UNITS && items.count && items.at[items.count - 1].kind == UNITS) {
        items.at[items.count - 1].value++;
        return;
    }
    if ((items.count & (items.count - 1)) == 0)
        items.at = realloc(items.at, (items.count ? 2 * items.count : 1) * sizeof *items.at);
    items.at[items.count++] = (struct item){kind, flag, value};
}

/* What the machine does where it may choose. */
static void late_step(void)
{
    struct word w = here();
    u64 choice = can_wait() ? chosen() : 0;
    if (choice % 4 == 0) {
        keep_item(REPORT, 0, 0);
        report();
        return;
    }
    int adds = choice / 4 % 2 && w.kind == TRAPPING && w.rc != 31;
    u64 value = chosen();
    keep_item(WAIT, (byte)adds, value);
    wait_for(adds, value);
}

static void unit(void)
{
    struct word w = here();
    if (w.kind == TRAPPING && overflows(&w)) {
        u64 value = chosen();
        keep_item(TRIGGER, 0, value);
        trigger(value);
    } else {
        keep_item(UNITS, 0, 1);
        step();
    }
}

static void run_late(u64 units)
{
    u64 used = 0;
    while (m.end == NONE && (used < units || m.is_pending)) {
        if (m.is_pending) {
            late_step();
        } else {
            used++;
            unit();
        }
        if (m.taken > MOST_BYTES || m.output.count > MOST_BYTES || items.count > MOST_ITEMS || used > MOST_UNITS)
            stop_with(FULL, "journal full");
    }
}

static void run_steps(u64 steps)
{
    for (; m.end == NONE && steps; steps--)
        step();
}
