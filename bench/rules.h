/*
 * The desk's rules in C, written for speed: what the proved rules are measured against, in a program (desk.c) and from C (batch.c).
 *
 * A desk is the caller's, and nothing is kept outside of it. All zero is an empty desk with last number 0; its rule is to be set.
 */
#include <stdint.h>
#include <string.h>

struct user { uint8_t here, sort, level, admin; uint16_t categories; uint32_t rooms, leads; };
struct script { uint8_t here, level, origin; uint16_t categories; };
struct session { uint8_t here, owner, level, writes, place; uint16_t categories; };
struct draft { uint32_t number, places; uint8_t script; };

struct house {
    struct user users[64];
    struct script scripts[64];
    struct session sessions[64];
    uint32_t rooms, live;
    struct draft drafts[256];
};

struct change { uint8_t frame[9]; uint32_t number; };

/* Current first, and both at a cache line: the copy of a take-back is faster, since it never reads 4096 bytes from where it just wrote. */
struct desk {
    struct house current __attribute__((aligned(64)));
    struct house base __attribute__((aligned(64)));
    struct change logged[32];
    unsigned oldest, kept;
    uint32_t last;
    unsigned rule; /* of Import: 1 equal labels, 2 the house script's covers the room script's */
};

static const uint8_t lengths[33] = {255, 7, 2, 3, 3, 6, 3, 7, 7, 8, 7, 2, 3, 3, 255, 255, 6, 5, 5, 6, 6, 2, 2,
                                    255, 255, 255, 255, 255, 255, 255, 255, 255, 1};

static uint32_t number_at(const uint8_t *b) { return (uint32_t)b[0] << 24 | (uint32_t)b[1] << 16 | (uint32_t)b[2] << 8 | b[3]; }
static uint16_t categories_at(const uint8_t *b) { return (uint16_t)(b[0] << 8 | b[1]); }
static uint32_t bit(unsigned place) { return place < 32 ? (uint32_t)1 << place : 0; }

/* whether one label is above another: 9 for the level, 16 for the categories alone */
static int above(unsigned level, unsigned c, unsigned over, unsigned d) { return level > over ? 9 : c & ~d ? 16 : 0; }

/* the numbers ascend, so the draft is found by halves */
static struct draft *find_draft(struct house *h, unsigned script, uint32_t number)
{
    unsigned low = 0, high = h->live;
    while (low < high) {
        unsigned middle = (low + high) / 2;
        if (h->drafts[middle].number < number)
            low = middle + 1;
        else
            high = middle;
    }
    return low < h->live && h->drafts[low].number == number && h->drafts[low].script == script ? &h->drafts[low] : 0;
}

/* ---- effects */

static void sweep(struct house *h)
{
    uint64_t used = 0;
    unsigned i, n = 0;
    for (i = 0; i < h->live; i++)
        if (h->drafts[i].places) {
            used |= (uint64_t)1 << h->drafts[i].script;
            h->drafts[n++] = h->drafts[i];
        }
    h->live = n;
    for (i = 0; i < 64; i++)
        if (h->scripts[i].here && !(used >> i & 1))
            memset(&h->scripts[i], 0, sizeof h->scripts[i]);
}

static void add_draft(struct house *h, uint32_t number, unsigned script, unsigned place)
{
    struct draft *d = &h->drafts[h->live++];
    d->number = number;
    d->script = (uint8_t)script;
    d->places = bit(place);
}

static void leave(struct house *h, unsigned w, unsigned room)
{
    unsigned i;
    h->users[w].rooms &= ~bit(room);
    for (i = 0; i < 64; i++) {
        struct session *s = &h->sessions[i];
        if (s->writes && s->owner == w && s->place == room)
            memset(s, 0, sizeof *s);
    }
}

/* a new label for w, whose sessions above it end */
static void set_label(struct house *h, unsigned w, unsigned level, unsigned categories)
{
    unsigned i;
    h->users[w].level = (uint8_t)level;
    h->users[w].categories = (uint16_t)categories;
    for (i = 0; i < 64; i++) {
        struct session *s = &h->sessions[i];
        if (s->here && s->owner == w && above(s->level, s->categories, level, categories))
            memset(s, 0, sizeof *s);
    }
}

static void disband(struct house *h, unsigned room)
{
    unsigned i;
    uint32_t others = ~bit(room);
    for (i = 0; i < 64; i++) {
        h->users[i].rooms &= others;
        h->users[i].leads &= others;
        if (h->sessions[i].writes && h->sessions[i].place == room)
            memset(&h->sessions[i], 0, sizeof h->sessions[i]);
    }
    for (i = 0; i < h->live; i++)
        h->drafts[i].places &= others;
    h->rooms &= others;
    sweep(h);
}

static void open_session(struct house *h, unsigned s, unsigned u, unsigned level, unsigned categories, unsigned writes, unsigned place)
{
    struct session *x = &h->sessions[s];
    x->here = 1;
    x->owner = (uint8_t)u;
    x->level = (uint8_t)level;
    x->categories = (uint16_t)categories;
    x->writes = (uint8_t)writes;
    x->place = (uint8_t)place;
}

static void apply(struct house *h, const uint8_t *f, uint32_t number)
{
    struct user *w;
    struct draft *d;
    switch (f[0]) {
    case 0x01:
        w = &h->users[f[2]];
        w->here = 1;
        w->sort = f[3];
        w->level = f[4];
        w->categories = categories_at(f + 5);
        w->rooms = w->leads = 0;
        w->admin = f[7];
        break;
    case 0x02:
        h->rooms |= bit(f[2]);
        h->users[f[1]].leads |= bit(f[2]);
        break;
    case 0x03:
        h->users[f[2]].rooms |= bit(f[3]);
        break;
    case 0x04: case 0x06:
        leave(h, f[2], f[3]);
        break;
    case 0x05:
        w = &h->users[f[2]];
        w->sort = 1;
        if (!w->rooms)
            set_label(h, f[2], f[4], categories_at(f + 5));
        w->rooms |= bit(f[3]);
        break;
    case 0x07:
        find_draft(h, f[2], number_at(f + 3))->places |= bit(f[7]);
        break;
    case 0x08:
        d = find_draft(h, f[2], number_at(f + 3));
        d->places &= ~bit(f[7]);
        if (!d->places)
            sweep(h);
        break;
    case 0x09:
        add_draft(h, number, f[7], 0);
        break;
    case 0x0A:
        find_draft(h, f[2], number_at(f + 3))->places |= 1;
        break;
    case 0x0B:
        disband(h, f[2]);
        break;
    case 0x0C:
        h->users[f[2]].leads |= bit(f[3]);
        break;
    case 0x0D:
        h->users[f[2]].leads &= ~bit(f[3]);
        break;
    case 0x10:
        open_session(h, f[2], f[1], f[4], categories_at(f + 5), 1, f[3]);
        break;
    case 0x11:
        open_session(h, f[2], f[1], f[3], categories_at(f + 4), 1, 0);
        break;
    case 0x12:
        open_session(h, f[2], f[1], f[3], categories_at(f + 4), 0, 255);
        break;
    case 0x14:
        add_draft(h, number, f[2], h->sessions[f[1]].place);
        break;
    case 0x15:
        h->scripts[f[2]].here = 1;
        h->scripts[f[2]].level = h->sessions[f[1]].level;
        h->scripts[f[2]].categories = h->sessions[f[1]].categories;
        h->scripts[f[2]].origin = h->sessions[f[1]].place;
        add_draft(h, number, f[2], h->sessions[f[1]].place);
        break;
    case 0x16:
        memset(&h->sessions[f[2]], 0, sizeof h->sessions[f[2]]);
        break;
    }
}

/* ---- the judge: 0 granted, else the refusal */

static int is_room(unsigned room) { return room >= 1 && room <= 16; }
static int differ(unsigned level, unsigned c, unsigned other, unsigned d) { return level != other ? 9 : c != d ? 16 : 0; }

static int no_users(const struct house *h)
{
    unsigned i;
    for (i = 0; i < 64; i++)
        if (h->users[i].here)
            return 0;
    return 1;
}

/* whether anyone but w leads the room */
static int led_by_another(const struct house *h, unsigned w, unsigned room)
{
    unsigned i;
    for (i = 0; i < 64; i++)
        if (i != w && (h->users[i].leads & bit(room)))
            return 1;
    return 0;
}

static int judge_people(const struct house *h, const uint8_t *f)
{
    const struct user *u, *w;
    int empty, in;
    switch (f[0]) {
    case 0x01:
        if (f[1] > 63 || f[2] > 63 || f[4] > 7 || (f[3] != 0 && f[3] != 2) || f[7] > 1 || (f[3] == 2 && (f[4] || f[5] || f[6] || f[7])))
            return 3;
        u = &h->users[f[1]];
        empty = !u->here && no_users(h);
        if (!empty && !u->here)
            return 4;
        if (h->users[f[2]].here)
            return 5;
        if (empty)
            return f[1] == f[2] && f[3] == 0 && f[7] == 1 ? 0 : 6;
        return u->admin ? 0 : 6;
    case 0x02:
        if (f[1] > 63 || !is_room(f[2]))
            return 3;
        if (!h->users[f[1]].here)
            return 4;
        if (h->rooms & bit(f[2]))
            return 5;
        return h->users[f[1]].admin ? 0 : 6;
    default:
        if (f[1] > 63 || f[2] > 63 || !is_room(f[3]) || (f[0] == 0x05 && f[4] > 7))
            return 3;
        u = &h->users[f[1]];
        w = &h->users[f[2]];
        if (!u->here || !w->here || !(h->rooms & bit(f[3])))
            return 4;
        if (!(u->leads & bit(f[3])))
            return 6;
        if (f[0] == 0x05 ? w->sort == 0 : f[0] == 0x06 ? w->sort != 1 : w->sort != 0)
            return 7;
        in = ((f[0] >= 0x0C ? w->leads : w->rooms) & bit(f[3])) != 0;
        if (in == (f[0] == 0x03 || f[0] == 0x05 || f[0] == 0x0C))
            return 8;
        return f[0] == 0x0D && !led_by_another(h, f[2], f[3]) ? 8 : 0;
    }
}

static int judge_drafts(struct house *h, unsigned rule, const uint8_t *f)
{
    unsigned room = f[0] == 0x09 ? f[8] : f[7];
    const struct script *one, *two;
    struct draft *d;
    int refusal;
    if (f[1] > 63 || f[2] > 63 || (f[0] == 0x09 && f[7] > 63) || !is_room(room))
        return 3;
    if (!h->users[f[1]].here || !(h->rooms & bit(room)) || !h->scripts[f[2]].here || (f[0] == 0x09 && !h->scripts[f[7]].here))
        return 4;
    d = find_draft(h, f[2], number_at(f + 3));
    if (!d)
        return 4;
    if (!(h->users[f[1]].leads & bit(room)))
        return 6;
    switch (f[0]) {
    case 0x07:
        return (d->places & 1) && !(d->places & bit(room)) ? 0 : 8;
    case 0x08:
        return d->places & bit(room) ? 0 : 8;
    case 0x0A:
        return (d->places & bit(room)) && h->scripts[f[2]].origin == 0 ? 0 : 8;
    }
    one = &h->scripts[f[2]];
    two = &h->scripts[f[7]];
    if (one->origin != room || two->origin != 0)
        return 8;
    refusal = rule == 1 ? differ(one->level, one->categories, two->level, two->categories)
                        : above(one->level, one->categories, two->level, two->categories);
    return refusal ? refusal : h->live < 256 ? 0 : 10;
}

static int judge_opening(const struct house *h, const uint8_t *f)
{
    const struct user *u = &h->users[f[1] & 63];
    const uint8_t *label = f[0] == 0x10 ? f + 4 : f + 3;
    if (f[1] > 63 || f[2] > 63 || (f[0] == 0x10 && !is_room(f[3])) || label[0] > 7)
        return 3;
    if (!u->here || (f[0] == 0x10 && !(h->rooms & bit(f[3]))))
        return 4;
    if (h->sessions[f[2]].here)
        return 5;
    if (f[0] == 0x11 && u->sort != 0)
        return 7;
    if (f[0] == 0x10 && !(u->rooms & bit(f[3])))
        return 8;
    return above(label[0], categories_at(label + 1), u->level, u->categories);
}

static int judge_work(struct house *h, const uint8_t *f)
{
    const struct session *s;
    const struct script *k;
    const struct user *o;
    const struct draft *d;
    int refusal;
    if (f[1] > 63 || f[2] > 63)
        return 3;
    s = &h->sessions[f[1]];
    k = &h->scripts[f[2]];
    if (f[0] == 0x15) {
        if (!s->here)
            return 4;
        if (k->here)
            return 5;
        if (!s->writes)
            return 7;
        return h->live < 256 ? 0 : 10;
    }
    if (!k->here || !s->here || !(d = find_draft(h, f[2], number_at(f + 3))))
        return 4;
    if (f[0] == 0x14) {
        if (!s->writes)
            return 7;
        if (!(d->places & bit(s->place)))
            return 8;
        refusal = differ(s->level, s->categories, k->level, k->categories);
        return refusal ? refusal : h->live < 256 ? 0 : 10;
    }
    o = &h->users[s->owner];
    if (s->writes ? !(d->places & bit(s->place)) : !(d->places & o->rooms) && !(o->sort == 0 && (d->places & 1)))
        return 8;
    return above(k->level, k->categories, s->level, s->categories);
}

static int judge(struct desk *desk, const uint8_t *f)
{
    struct house *h = &desk->current;
    const struct session *s;
    switch (f[0]) {
    case 0x01: case 0x02: case 0x03: case 0x04: case 0x05: case 0x06: case 0x0C: case 0x0D:
        return judge_people(h, f);
    case 0x07: case 0x08: case 0x09: case 0x0A:
        return judge_drafts(h, desk->rule, f);
    case 0x0B:
        if (f[1] > 63 || !is_room(f[2]))
            return 3;
        if (!h->users[f[1]].here || !(h->rooms & bit(f[2])))
            return 4;
        return h->users[f[1]].leads & bit(f[2]) ? 0 : 6;
    case 0x10: case 0x11: case 0x12:
        return judge_opening(h, f);
    case 0x16:
        if (f[1] > 63 || f[2] > 63)
            return 3;
        s = &h->sessions[f[2]];
        if (!h->users[f[1]].here || !s->here)
            return 4;
        return s->owner == f[1] || (s->writes && (h->users[f[1]].leads & bit(s->place))) ? 0 : 6;
    case 0x20:
        if (f[1] > 63)
            return 3;
        if (!h->users[f[1]].here)
            return 4;
        return h->users[f[1]].admin ? 0 : 6;
    }
    return judge_work(h, f);
}

/* ---- one request: the answer byte; a number, where one was issued, is the desk's last */

static void take_back(struct desk *desk)
{
    const struct change *c = desk->logged + desk->oldest, *end = desk->logged + 32;
    struct house *h = &desk->current;
    unsigned n = --desk->kept;
    *h = desk->base;
    for (; n; n--) {
        apply(h, c->frame, c->number);
        if (++c == end)
            c = desk->logged;
    }
}

static uint8_t answer(struct desk *desk, const uint8_t *f, unsigned length)
{
    struct change *c;
    int refusal = judge(desk, f), numbered = f[0] == 0x09 || f[0] == 0x14 || f[0] == 0x15;
    if (!refusal && numbered && desk->last == UINT32_MAX)
        refusal = 11;
    if (!refusal && f[0] == 0x20 && desk->kept == 0)
        refusal = 12;
    if (refusal)
        return (uint8_t)(0xC0 + refusal);
    if (f[0] == 0x13)
        return 0x80;
    if (f[0] == 0x20) {
        take_back(desk);
        return 0x80;
    }
    if (numbered)
        desk->last++;
    if (desk->kept == 32) {
        c = &desk->logged[desk->oldest];
        apply(&desk->base, c->frame, c->number);
        desk->oldest = (desk->oldest + 1) % 32;
        desk->kept--;
    }
    c = &desk->logged[(desk->oldest + desk->kept++) % 32];
    memcpy(c->frame, f, length);
    c->number = numbered ? desk->last : 0;
    apply(&desk->current, c->frame, c->number);
    return numbered ? 0x81 : 0x80;
}
