/*
 * Images in C: the records of a house written as bytes, and read back where they keep every rule. A part of bench/desk.c.
 *
 * Kinds in this order, ids and numbers ascending: 40 counter, 41 user, 42 room, 43 script, 44 session, 45 draft. A lone 46 directly
 * behind the counter says rule 2.
 */
enum { IMAGE_MAX = 6 + 64 * 15 + 16 * 2 + 64 * 6 + 64 * 8 + 256 * 10 };

static const uint8_t image_lengths[7] = {4, 14, 1, 5, 7, 9, 0};

static uint8_t *put_four(uint8_t *b, uint32_t n)
{
    b[0] = (uint8_t)(n >> 24), b[1] = (uint8_t)(n >> 16), b[2] = (uint8_t)(n >> 8), b[3] = (uint8_t)n;
    return b + 4;
}

static uint8_t *put_label(uint8_t *b, unsigned level, unsigned categories)
{
    b[0] = (uint8_t)level, b[1] = (uint8_t)(categories >> 8), b[2] = (uint8_t)categories;
    return b + 3;
}

static size_t image_of(const struct house *h, uint32_t number, unsigned import_rule, uint8_t *image)
{
    uint8_t *b = image;
    unsigned i;
    *b++ = 0x40;
    b = put_four(b, number);
    if (import_rule == 2)
        *b++ = 0x46;
    for (i = 0; i < 64; i++)
        if (h->users[i].here) {
            const struct user *u = &h->users[i];
            *b++ = 0x41, *b++ = (uint8_t)i, *b++ = u->sort;
            b = put_label(b, u->level, u->categories);
            b = put_four(put_four(b, u->rooms), u->leads);
            *b++ = u->admin;
        }
    for (i = 1; i <= 16; i++)
        if (h->rooms & bit(i))
            *b++ = 0x42, *b++ = (uint8_t)i;
    for (i = 0; i < 64; i++)
        if (h->scripts[i].here) {
            *b++ = 0x43, *b++ = (uint8_t)i;
            b = put_label(b, h->scripts[i].level, h->scripts[i].categories);
            *b++ = h->scripts[i].origin;
        }
    for (i = 0; i < 64; i++)
        if (h->sessions[i].here) {
            const struct session *s = &h->sessions[i];
            *b++ = 0x44, *b++ = (uint8_t)i, *b++ = s->owner;
            b = put_label(b, s->level, s->categories);
            *b++ = s->writes, *b++ = s->place;
        }
    for (i = 0; i < h->live; i++) {
        *b++ = 0x45;
        b = put_four(b, h->drafts[i].number);
        *b++ = h->drafts[i].script;
        b = put_four(b, h->drafts[i].places);
    }
    return (size_t)(b - image);
}

/* one record, behind those before it: its fields and its order; 0 where one of them is wrong */
static int take_record(struct house *h, const uint8_t *f, int *id)
{
    if (f[0] != 0x45) {
        if (f[1] > 63 || f[1] <= *id)
            return 0;
        *id = f[1];
    }
    switch (f[0]) {
    case 0x41: {
        struct user *u = &h->users[f[1]];
        u->here = 1, u->sort = f[2], u->level = f[3], u->categories = categories_at(f + 4);
        u->rooms = number_at(f + 6), u->leads = number_at(f + 10), u->admin = f[14];
        return u->sort <= 2 && u->level <= 7 && u->admin <= 1;
    }
    case 0x42:
        h->rooms |= bit(f[1]);
        return f[1] >= 1 && f[1] <= 16;
    case 0x43: {
        struct script *k = &h->scripts[f[1]];
        k->here = 1, k->level = f[2], k->categories = categories_at(f + 3), k->origin = f[5];
        return k->level <= 7;
    }
    case 0x44: {
        struct session *s = &h->sessions[f[1]];
        s->here = 1, s->owner = f[2], s->level = f[3], s->categories = categories_at(f + 4), s->writes = f[6], s->place = f[7];
        return s->owner <= 63 && s->level <= 7 && s->writes <= 1 && (s->writes || s->place == 255);
    }
    }
    {
        struct draft *d = &h->drafts[h->live];
        uint32_t before = h->live ? h->drafts[h->live - 1].number : 0;
        if (h->live == 256)
            return 0;
        d->number = number_at(f + 1), d->script = f[5], d->places = number_at(f + 6);
        h->live++;
        return d->number > before && d->script <= 63;
    }
}

static int is_place(const struct house *h, unsigned p) { return p == 0 || (p <= 16 && (h->rooms & bit(p))); }

/* the record rules, of records whose fields are within their bounds */
static int keeps_rules(const struct house *h, uint32_t number)
{
    uint32_t led = 0;
    uint64_t drafted = 0, scripts = 0;
    unsigned i, any = 0, administered = 0;
    for (i = 0; i < 64; i++) {
        const struct user *u = &h->users[i];
        if (((u->rooms | u->leads) & ~h->rooms) || ((u->admin || u->leads) && u->sort != 0))
            return 0;
        if (u->sort == 2 && (u->level || u->categories || u->rooms))
            return 0;
        any |= u->here, administered |= u->admin, led |= u->leads;
    }
    if ((any && !administered) || led != h->rooms)
        return 0;
    for (i = 0; i < 64; i++) {
        const struct session *s = &h->sessions[i];
        const struct user *o = &h->users[s->owner];
        if (s->here && (!o->here || above(s->level, s->categories, o->level, o->categories)))
            return 0;
        if (s->writes && (!is_place(h, s->place) || (s->place ? !(o->rooms & bit(s->place)) : o->sort != 0)))
            return 0;
    }
    for (i = 0; i < 64; i++)
        if (h->scripts[i].here) {
            scripts |= (uint64_t)1 << i;
            if (!is_place(h, h->scripts[i].origin))
                return 0;
        }
    for (i = 0; i < h->live; i++) {
        const struct draft *d = &h->drafts[i];
        unsigned origin = h->scripts[d->script].origin;
        if (!h->scripts[d->script].here || !d->places || (d->places & ~(h->rooms | 1)))
            return 0;
        if (origin ? d->places != bit(origin) : !(d->places & 1) && (d->places & (d->places - 1)))
            return 0;
        drafted |= (uint64_t)1 << d->script;
    }
    return drafted == scripts && (!h->live || h->drafts[h->live - 1].number <= number);
}

/* 0, or 14, or 15; the frames are walked first */
static int open_image(const uint8_t *b, size_t n, struct house *h, uint32_t *number, unsigned *import_rule)
{
    size_t at;
    unsigned kind = 0x40;
    int id = -1;
    if (n == 0)
        return 14;
    for (at = 0; at < n; at += 1u + image_lengths[b[at] - 0x40]) {
        if (b[at] < 0x40 || b[at] > 0x46)
            return 15;
        if (n - at <= image_lengths[b[at] - 0x40])
            return 14;
    }
    if (b[0] != 0x40)
        return 15;
    *number = number_at(b + 1);
    *import_rule = n > 5 && b[5] == 0x46 ? 2 : 1;
    memset(h, 0, sizeof *h);
    for (at = *import_rule == 2 ? 6 : 5; at < n; at += 1u + image_lengths[b[at] - 0x40]) {
        if (b[at] < kind || b[at] == 0x40 || b[at] == 0x46)
            return 15;
        if (b[at] != kind)
            kind = b[at], id = -1;
        if (!take_record(h, b + at, &id))
            return 15;
    }
    return keeps_rules(h, *number) ? 0 : 15;
}
