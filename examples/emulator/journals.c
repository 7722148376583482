/* Keeps the journal of a run, and follows one (docs/journals.md). */

static void keep_journal(const char *path)
{
    byte head[38] = "ALPHAJR1";
    FILE *file = fopen(path, "wb");
    if (!file)
        stop_with(NO_FILE, "shelf");
    head[8] = (byte)m.completion, head[9] = (byte)m.end;
    put_little(head + 10, m.first, 8), put_little(head + 18, m.second, 8);
    put_little(head + 26, m.taken, 4), put_little(head + 30, m.output.count, 4), put_little(head + 34, items.count, 4);
    fwrite(head, 1, sizeof head, file);
    fwrite(m.input.at, 1, m.taken, file);
    fwrite(m.output.at, 1, m.output.count, file);
    for (u64 n = 0; n < items.count; n++) {
        byte spelled[10] = {items.at[n].kind, items.at[n].flag};
        int at = items.at[n].kind == WAIT ? 2 : 1, size = items.at[n].kind == REPORT ? 0 : items.at[n].kind == UNITS ? 4 : 8;
        put_little(spelled + at, items.at[n].value, size);
        fwrite(spelled, 1, (size_t)(at + size), file);
    }
    if (fclose(file))
        stop_with(NO_FILE, "shelf");
}

static void bad_journal(int kind, u64 at)
{
    stop_with(NO_JOURNAL, "journal kind %d at %llu", kind, (unsigned long long)at);
}

static void no_run(int kind, u64 at)
{
    stop_with(NO_RUN, "norun kind %d at %llu", kind, (unsigned long long)at);
}

/* Reads item n, which begins at an offset, and answers the offset behind it. */
static u64 read_item(struct bytes file, u64 n, u64 at)
{
    static const byte sizes[] = {5, 9, 10, 1};
    if (at >= file.count || file.at[at] > REPORT || file.count - at < sizes[file.at[at]])
        bad_journal(4, n);
    struct item found = {file.at[at], 0, 0};
    if (found.kind == UNITS) {
        found.value = little(file.at + at + 1, 4);
        if (found.value == 0 || (n && items.at[n - 1].kind == UNITS))
            bad_journal(4, n);
    } else if (found.kind == TRIGGER) {
        found.value = little(file.at + at + 1, 8);
    } else if (found.kind == WAIT) {
        found.flag = file.at[at + 1], found.value = little(file.at + at + 2, 8);
        if (found.flag > 1)
            bad_journal(4, n);
    }
    items.at[n] = found;
    return at + sizes[found.kind];
}

static void read_items(struct bytes file, u64 at, u64 count)
{
    u64 units = 0;
    items.at = calloc(count + 1, sizeof *items.at), items.count = count;
    for (u64 n = 0; n < count; n++) {
        at = read_item(file, n, at);
        units += items.at[n].kind == UNITS ? items.at[n].value : items.at[n].kind == TRIGGER;
    }
    if (units > MOST_UNITS)
        bad_journal(5, 0);
    if (at < file.count)
        bad_journal(6, at);
}

/* The makings of one item's step; where it is impossible, that is told. */
static void follow_item(u64 n)
{
    const struct item *one = &items.at[n];
    struct word w = here();
    if (m.end != NONE)
        no_run(1, n);
    switch (one->kind) {
    case UNITS:
        if (m.is_pending || overflows(&w))
            no_run(1, n);
        step();
        return;
    case TRIGGER:
        if (m.is_pending || !overflows(&w))
            no_run(1, n);
        trigger(one->value);
        return;
    case WAIT:
        if (!m.is_pending || !can_wait() || (one->flag && (w.kind != TRAPPING || w.rc == 31)))
            no_run(1, n);
        wait_for(one->flag, one->value);
        return;
    default:
        if (!m.is_pending)
            no_run(1, n);
        report();
    }
}

static int replay(struct bytes file)
{
    static const int used[] = {0, 1, 2, 1, 2, 2, 2, 1};
    u64 first, second, in, out, count, units = 0, reports = 0;
    if (file.count < 38)
        bad_journal(1, file.count);
    if (memcmp(file.at, "ALPHAJR1", 8))
        bad_journal(2, 0);
    first = little(file.at + 10, 8), second = little(file.at + 18, 8);
    in = little(file.at + 26, 4), out = little(file.at + 30, 4), count = little(file.at + 34, 4);
    if (file.at[8] > STOP)
        bad_journal(3, 1);
    if (file.at[9] > OVERFLOW)
        bad_journal(3, 2);
    if ((used[file.at[9]] < 1 && first) || (used[file.at[9]] < 2 && second))
        bad_journal(3, 3);
    if (in > MOST_BYTES)
        bad_journal(3, 4);
    if (out > MOST_BYTES)
        bad_journal(3, 5);
    if (count > MOST_ITEMS)
        bad_journal(3, 6);
    if (file.count < 38 + in + out)
        bad_journal(1, file.count);
    read_items(file, 38 + in + out, count);
    m.completion = (enum completion)file.at[8], notes_overflows = 0;
    m.input = (struct bytes){file.at + 38, in};
    for (u64 n = 0; n < items.count; n++) {
        for (u64 k = 0; k < (items.at[n].kind == UNITS ? items.at[n].value : 1); k++)
            follow_item(n);
        units += items.at[n].kind == UNITS ? items.at[n].value : items.at[n].kind == TRIGGER;
        reports += items.at[n].kind == REPORT;
    }
    for (u64 n = 0; n < out || n < m.output.count; n++)
        if (n >= out || n >= m.output.count || file.at[38 + in + n] != m.output.at[n])
            no_run(2, n);
    if (m.end != file.at[9] || m.first != first || m.second != second || m.is_pending)
        no_run(3, 0);
    if (m.taken < in)
        no_run(4, in - m.taken);
    printf("run units %llu reports %llu\n", (unsigned long long)units, (unsigned long long)reports);
    return DONE;
}
