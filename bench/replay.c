// A second `replay`, in plain C, written from the rules: it plays a log of calls on one desk and prints each answer.
// Nothing here is proved. The proved program is compared with it, for its answers and for its time.
// Built with -DEVERY_CHOICE it finds the shapes by trying every choice, on boards of at most EVERY_CHOICE bent runs.
#include <float.h>
#include <stdbool.h>
#include <stdint.h>
#include <stdio.h>
#include <stdlib.h>
#include <string.h>

// Every operation on floats is rounded once, to a float: a product and a sum are not made one, and nothing is kept in more digits.
#pragma GCC optimize("fp-contract=off")
_Static_assert(FLT_EVAL_METHOD == 0, "operations on floats give floats");

enum { SEATS = 8, PINS = 32, RECORDS = 256, BOARD = 60000, GAP = 20, NETS = 8, LEGS = 2 * (PINS - 1) };
enum { LINE_BYTES = 16384, MAP_PAIRS = 4200, LIST_NUMBERS = 40, WRITE_ROOM = 1024, WIRE_ROOM = 64 };

typedef struct { int32_t x, y; } Place;
typedef struct { bool there; Place at; uint32_t net, part; } Pin;
typedef enum { PLACED, MOVED, REMOVED } Kind;
typedef struct { Kind kind; uint32_t pin; Place from, to; uint32_t net, part; } Edit;
typedef struct { uint32_t seat; Edit edit; } Record;
typedef struct { bool open; uint16_t job; unsigned standing; Pin pins[PINS]; } Seat;
typedef struct { Seat seats[SEATS]; unsigned used; Record records[RECORDS]; } Desk;
typedef struct { int number, record; } Verdict;

static const Verdict accepted = {0, -1};

static Verdict refused(int number) { return (Verdict){number, -1}; }

// ---- Places and edits ----

static bool same(Place a, Place b) { return a.x == b.x && a.y == b.y; }

static bool outside(Place at) { return at.x < -BOARD || at.x > BOARD || at.y < -BOARD || at.y > BOARD; }

static bool closer(int32_t a, int32_t b) { return llabs((int64_t)a - b) < GAP; }

static bool too_near(Place a, Place b) { return closer(a.x, b.x) && closer(a.y, b.y); }

// A pin other than this one stands too near to the place.
static bool crowded(const Pin *pins, uint32_t pin, Place at) {
    for (uint32_t p = 0; p < PINS; p++)
        if (p != pin && pins[p].there && too_near(pins[p].at, at)) return true;
    return false;
}

static bool no_net(uint32_t net) { return net < 1 || net > NETS; }

static bool makeable(const Pin *pins, const Edit *edit) {
    if (edit->pin >= PINS) return false;
    const Pin *pin = &pins[edit->pin];
    if (edit->kind == PLACED) return !pin->there && !no_net(edit->net) && !outside(edit->to) && !crowded(pins, edit->pin, edit->to);
    if (!pin->there || !same(pin->at, edit->from) || pin->net != edit->net || pin->part != edit->part) return false;
    return edit->kind == REMOVED || (!outside(edit->to) && !same(pin->at, edit->to) && !crowded(pins, edit->pin, edit->to));
}

static void make(Pin *pins, const Edit *edit) {
    pins[edit->pin] = edit->kind == REMOVED ? (Pin){0} : (Pin){true, edit->to, edit->net, edit->part};
}

// The edit that takes an edit back.
static Edit flipped(const Edit *edit) {
    Edit back = {edit->kind, edit->pin, edit->to, edit->from, edit->net, edit->part};
    if (edit->kind == PLACED) back.kind = REMOVED;
    if (edit->kind == REMOVED) back.kind = PLACED;
    return back;
}

// ---- The desk ----

static bool pins_break_rules(const Pin *pins) {
    for (int p = 0; p < PINS; p++) {
        if (!pins[p].there) continue;
        if (outside(pins[p].at) || no_net(pins[p].net)) return true;
        for (int q = 0; q < p; q++)
            if (pins[q].there && too_near(pins[p].at, pins[q].at)) return true;
    }
    return false;
}

// The records of a seat, in the order in which they were made.
static unsigned owned_by(const Desk *desk, uint32_t seat, const Edit **own) {
    unsigned n = 0;
    for (unsigned r = 0; r < desk->used; r++)
        if (desk->records[r].seat == seat) own[n++] = &desk->records[r].edit;
    return n;
}

static bool history_breaks(const Seat *seat, const Edit **own, unsigned n) {
    Pin pins[PINS];
    memcpy(pins, seat->pins, sizeof pins);
    for (unsigned e = seat->standing; e-- > 0;) {
        Edit back = flipped(own[e]);
        if (!makeable(pins, &back)) return true;
        make(pins, &back);
        if (!makeable(pins, own[e])) return true;
    }
    memcpy(pins, seat->pins, sizeof pins);
    for (unsigned e = seat->standing; e < n; e++) {
        if (!makeable(pins, own[e])) return true;
        make(pins, own[e]);
    }
    return false;
}

static bool job_elsewhere(const Desk *desk, uint16_t job, uint32_t seat) {
    for (uint32_t s = 0; s < SEATS; s++)
        if (s != seat && desk->seats[s].open && desk->seats[s].job == job) return true;
    return false;
}

static bool broken(const Desk *desk) {
    if (desk->used > RECORDS) return true;
    for (unsigned r = 0; r < desk->used; r++)
        if (desk->records[r].seat >= SEATS) return true;
    for (uint32_t s = 0; s < SEATS; s++) {
        const Seat *seat = &desk->seats[s];
        const Edit *own[RECORDS];
        unsigned n = owned_by(desk, s, own);
        if (!seat->open) {
            if (n || seat->standing) return true;
            continue;
        }
        if (seat->job == 0 || job_elsewhere(desk, seat->job, s) || seat->standing > n) return true;
        if (pins_break_rules(seat->pins) || history_breaks(seat, own, n)) return true;
    }
    return false;
}

// What every call naming a seat but opening is refused for first: 28, 1, 2.
static Verdict seat_refusal(const Desk *desk, uint32_t seat) {
    if (broken(desk)) return refused(28);
    if (seat >= SEATS) return refused(1);
    return desk->seats[seat].open ? accepted : refused(2);
}

// ---- The pin map ----

static uint32_t number_at(const uint8_t *b) { return (uint32_t)b[0] << 24 | (uint32_t)b[1] << 16 | (uint32_t)b[2] << 8 | b[3]; }

// The two forms of a map. An old record has no net and no part number: they are 1 and 0.
typedef enum { OLD, NEW } Form;

static size_t record_bytes(Form form) { return form == OLD ? 12 : 16; }

static Pin pin_at(Form form, const uint8_t *b) {
    Place at = {(int32_t)number_at(b + 4), (int32_t)number_at(b + 8)};
    return form == OLD ? (Pin){true, at, 1, 0} : (Pin){true, at, b[3], number_at(b + 12)};
}

static Verdict read_map(Form form, const uint8_t *map, size_t bytes, uint16_t job, Pin *pins) {
    size_t size = record_bytes(form);
    if (bytes % size || bytes > PINS * size) return refused(13);
    int before = -1;
    for (size_t r = 0; r < bytes / size; r++) {
        const uint8_t *b = map + r * size;
        Pin pin = pin_at(form, b);
        if ((b[0] << 8 | b[1]) != job) return (Verdict){14, (int)r};
        if (b[2] >= PINS || b[2] <= before || (form == OLD && b[3] != 0) || no_net(pin.net)) return (Verdict){15, (int)r};
        if (outside(pin.at) || crowded(pins, b[2], pin.at)) return (Verdict){15, (int)r};
        pins[b[2]] = pin;
        before = b[2];
    }
    return accepted;
}

static void put_number(uint8_t *b, uint32_t n) {
    b[0] = n >> 24, b[1] = n >> 16, b[2] = n >> 8, b[3] = n;
}

static size_t write_map(Form form, uint16_t job, const Pin *pins, uint8_t *buffer) {
    size_t n = 0;
    for (int p = 0; p < PINS; p++) {
        if (!pins[p].there) continue;
        uint8_t *b = buffer + n;
        b[0] = job >> 8, b[1] = job & 255, b[2] = p, b[3] = form == OLD ? 0 : pins[p].net;
        put_number(b + 4, (uint32_t)pins[p].at.x);
        put_number(b + 8, (uint32_t)pins[p].at.y);
        if (form == NEW) put_number(b + 12, pins[p].part);
        n += record_bytes(form);
    }
    return n;
}

static unsigned pins_there(const Pin *pins) {
    unsigned n = 0;
    for (int p = 0; p < PINS; p++) n += pins[p].there;
    return n;
}

// A pin has what an old record has no room for: a net other than 1, or a part number other than 0.
static bool more_than_old(const Pin *pins) {
    for (int p = 0; p < PINS; p++)
        if (pins[p].there && (pins[p].net != 1 || pins[p].part != 0)) return true;
    return false;
}

// The pins of a map that is to be moved into the other form, into 32 that are absent: 4, 13, 14, 15, and 22 where the other is the old one.
static Verdict read_to_move(Form form, const uint8_t *map, size_t bytes, uint16_t job, Pin *pins) {
    if (job == 0) return refused(4);
    Verdict v = read_map(form, map, bytes, job, pins);
    if (v.number) return v;
    return form == NEW && more_than_old(pins) ? refused(22) : accepted;
}

// ---- Calls that change the desk ----

static Verdict open_seat(Desk *desk, uint32_t seat, uint16_t job, Form form, const uint8_t *map, size_t bytes) {
    if (broken(desk)) return refused(28);
    if (seat >= SEATS) return refused(1);
    if (desk->seats[seat].open) return refused(3);
    if (job == 0) return refused(4);
    if (job_elsewhere(desk, job, seat)) return refused(5);
    Seat opened = {.open = true, .job = job};
    Verdict v = read_map(form, map, bytes, job, opened.pins);
    if (v.number == 0) desk->seats[seat] = opened;
    return v;
}

// Frees the records of a seat after its first `kept`.
static void free_records(Desk *desk, uint32_t seat, unsigned kept) {
    unsigned n = 0, own = 0;
    for (unsigned r = 0; r < desk->used; r++)
        if (desk->records[r].seat != seat || own++ < kept) desk->records[n++] = desk->records[r];
    desk->used = n;
}

static Verdict close_seat(Desk *desk, uint32_t seat) {
    Verdict v = seat_refusal(desk, seat);
    if (v.number) return v;
    free_records(desk, seat, 0);
    desk->seats[seat] = (Seat){0};
    return accepted;
}

// The last test of an edit, 12, and the edit made.
static Verdict record_edit(Desk *desk, uint32_t seat, Edit edit) {
    Seat *s = &desk->seats[seat];
    const Edit *own[RECORDS];
    if (desk->used - (owned_by(desk, seat, own) - s->standing) == RECORDS) return refused(12);
    free_records(desk, seat, s->standing);
    desk->records[desk->used++] = (Record){seat, edit};
    s->standing++;
    make(s->pins, &edit);
    return accepted;
}

static Verdict place_pin(Desk *desk, uint32_t seat, uint32_t pin, Place at, uint32_t net, uint32_t part) {
    Verdict v = seat_refusal(desk, seat);
    if (v.number) return v;
    const Pin *pins = desk->seats[seat].pins;
    if (pin >= PINS) return refused(6);
    if (pins[pin].there) return refused(7);
    if (no_net(net)) return refused(21);
    if (outside(at)) return refused(8);
    if (crowded(pins, pin, at)) return refused(9);
    return record_edit(desk, seat, (Edit){PLACED, pin, {0, 0}, at, net, part});
}

static Verdict move_pin(Desk *desk, uint32_t seat, uint32_t pin, Place at) {
    Verdict v = seat_refusal(desk, seat);
    if (v.number) return v;
    const Pin *pins = desk->seats[seat].pins;
    if (pin >= PINS || !pins[pin].there) return refused(6);
    if (outside(at)) return refused(8);
    if (same(pins[pin].at, at) || crowded(pins, pin, at)) return refused(9);
    return record_edit(desk, seat, (Edit){MOVED, pin, pins[pin].at, at, pins[pin].net, pins[pin].part});
}

static Verdict remove_pin(Desk *desk, uint32_t seat, uint32_t pin) {
    Verdict v = seat_refusal(desk, seat);
    if (v.number) return v;
    const Pin *pins = desk->seats[seat].pins;
    if (pin >= PINS || !pins[pin].there) return refused(6);
    return record_edit(desk, seat, (Edit){REMOVED, pin, pins[pin].at, {0, 0}, pins[pin].net, pins[pin].part});
}

static Verdict undo(Desk *desk, uint32_t seat) {
    Verdict v = seat_refusal(desk, seat);
    if (v.number) return v;
    Seat *s = &desk->seats[seat];
    if (s->standing == 0) return refused(10);
    const Edit *own[RECORDS];
    owned_by(desk, seat, own);
    Edit back = flipped(own[--s->standing]);
    make(s->pins, &back);
    return accepted;
}

static Verdict redo(Desk *desk, uint32_t seat) {
    Verdict v = seat_refusal(desk, seat);
    if (v.number) return v;
    Seat *s = &desk->seats[seat];
    const Edit *own[RECORDS];
    if (owned_by(desk, seat, own) == s->standing) return refused(11);
    make(s->pins, own[s->standing++]);
    return accepted;
}

// ---- Wiring ----

typedef enum { STRAIGHT, LOWER, UPPER } Shape;
typedef struct { int near, far; Shape shape; } Run;
typedef struct { Place a, b; } Leg;
typedef struct { int64_t length; int runs, legs; int64_t weighed; Run run[PINS - 1]; Leg leg[LEGS]; } Wiring;
typedef struct { int64_t distance, minus_dy, minus_x; int low, high; } Weight;

static int64_t gap(int32_t a, int32_t b) { return llabs((int64_t)a - b); }

static int64_t distance(Place a, Place b) { return gap(a.x, b.x) + gap(a.y, b.y); }

static Weight weigh(const Pin *pins, int p, int q) {
    Place a = pins[p].at, b = pins[q].at;
    return (Weight){distance(a, b), -gap(a.y, b.y), -(a.x > b.x ? a.x : b.x), p < q ? p : q, p < q ? q : p};
}

static bool before(Weight v, Weight w) {
    if (v.distance != w.distance) return v.distance < w.distance;
    if (v.minus_dy != w.minus_dy) return v.minus_dy < w.minus_dy;
    if (v.minus_x != w.minus_x) return v.minus_x < w.minus_x;
    return v.low != w.low ? v.low < w.low : v.high < w.high;
}

static bool bent(const Pin *pins, const Run *run) {
    Place a = pins[run->near].at, b = pins[run->far].at;
    return a.x != b.x && a.y != b.y;
}

// The runs as they are taken, growing from the lowest-numbered pin; at least one pin is there.
static int grow(const Pin *pins, Run *run) {
    bool reached[PINS] = {false};
    int link[PINS], n = 0, latest = 0;
    Weight best[PINS];
    while (!pins[latest].there) latest++;
    int first = latest;
    for (;;) {
        reached[latest] = true;
        int next = -1;
        for (int q = 0; q < PINS; q++) {
            if (!pins[q].there || reached[q]) continue;
            Weight w = weigh(pins, latest, q);
            if (latest == first || before(w, best[q])) best[q] = w, link[q] = latest;
            if (next < 0 || before(best[q], best[next])) next = q;
        }
        if (next < 0) return n;
        run[n] = (Run){link[next], next, STRAIGHT};
        if (bent(pins, &run[n])) run[n].shape = LOWER;
        n++;
        latest = next;
    }
}

static Place corner(Place a, Place b, Shape shape) {
    bool at_b = shape == LOWER ? b.y < a.y : b.y > a.y;
    return at_b ? (Place){a.x, b.y} : (Place){b.x, a.y};
}

static int lay_legs(const Pin *pins, const Run *run, int n, Leg *leg) {
    int legs = 0;
    for (int i = 0; i < n; i++) {
        Place a = pins[run[i].near].at, b = pins[run[i].far].at;
        if (run[i].shape != STRAIGHT) {
            Place c = corner(a, b, run[i].shape);
            leg[legs++] = (Leg){a, c};
            a = c;
        }
        leg[legs++] = (Leg){a, b};
    }
    return legs;
}

// A leg as a stretch of a line: which line, and where on it.
typedef struct { bool upright; int32_t line, from, to; } Stretch;

static int in_order(const void *a, const void *b) {
    const Stretch *s = a, *t = b;
    if (s->upright != t->upright) return s->upright ? 1 : -1;
    if (s->line != t->line) return s->line < t->line ? -1 : 1;
    return s->from < t->from ? -1 : s->from > t->from;
}

// The copper of the legs as stretches in order, those that overlap or touch made one; how many are left.
static int join_legs(const Leg *leg, int legs, Stretch *s) {
    int n = 0;
    for (int i = 0; i < legs; i++) {
        Place a = leg[i].a, b = leg[i].b;
        bool upright = a.x == b.x;
        int32_t f = upright ? a.y : a.x, t = upright ? b.y : b.x;
        s[i] = (Stretch){upright, upright ? a.x : a.y, f < t ? f : t, f < t ? t : f};
    }
    qsort(s, legs, sizeof *s, in_order);
    for (int i = 0; i < legs; i++) {
        if (n == 0 || s[i].upright != s[n - 1].upright || s[i].line != s[n - 1].line || s[i].from > s[n - 1].to) s[n++] = s[i];
        else if (s[i].to > s[n - 1].to) s[n - 1].to = s[i].to;
    }
    return n;
}

static int64_t sum_of(const Stretch *s, int n) {
    int64_t sum = 0;
    for (int i = 0; i < n; i++) sum += s[i].to - s[i].from;
    return sum;
}

// The unit steps covered by at least one leg, each counted once.
static int64_t length_of(const Leg *leg, int legs) {
    Stretch s[LEGS];
    return sum_of(s, join_legs(leg, legs, s));
}

// How far the copper of a run from `at` to `other` leaves `at` straight on: to the right, up, to the left, down.
typedef struct { int way; int64_t reach; } Arm;

static Arm arm(Place at, Place other, Shape shape) {
    Place to = shape == STRAIGHT ? other : corner(at, other, shape);
    if (to.x != at.x) return (Arm){to.x > at.x ? 0 : 2, gap(to.x, at.x)};
    return (Arm){to.y > at.y ? 1 : 3, gap(to.y, at.y)};
}

// The shape of a bent run that is not the favoured one.
static Shape other_than(Shape favoured) { return favoured == LOWER ? UPPER : LOWER; }

// A cost is a length and a choice of shapes in one number: the length above, below it a bit for each run, the first run's highest, set for the shape that is
// not favoured. Costs of parts add up, and the least cost is the least length with the first choice among equals.
enum { CHOICE_BITS = 32 };

static uint64_t other_bit(int run) { return (uint64_t)1 << (CHOICE_BITS - 1 - run); }

// What lies below a pin costs, given the shape of the run that reached it (-1: none did): the best over the shapes of the runs leading on.
static uint64_t pin_cost(const Pin *pins, const Run *run, int n, Shape favoured, int pin, int reach, Shape reach_shape, uint64_t below[][3]) {
    int on[PINS], count = 0, bends = 0, bend[PINS];
    for (int r = 0; r < n; r++)
        if (run[r].near == pin) {
            bend[count] = run[r].shape == STRAIGHT ? -1 : bends++;
            on[count++] = r;
        }
    uint64_t best = UINT64_MAX;
    for (uint32_t choice = 0; choice < (uint32_t)1 << bends; choice++) {
        int64_t longest[4] = {0};
        uint64_t cost = 0, sum = 0;
        if (reach >= 0) {
            Arm a = arm(pins[pin].at, pins[run[reach].near].at, reach_shape);
            longest[a.way] = a.reach;
        }
        for (int i = 0; i < count; i++) {
            const Run *r = &run[on[i]];
            Shape shape = bend[i] < 0 ? STRAIGHT : choice >> bend[i] & 1 ? UPPER : LOWER;
            Place near = pins[r->near].at, far = pins[r->far].at;
            Arm a = arm(near, far, shape);
            int64_t shared = a.reach < longest[a.way] ? a.reach : longest[a.way];
            if (a.reach > longest[a.way]) longest[a.way] = a.reach;
            sum += distance(near, far) - shared;
            cost += below[on[i]][shape] + (shape == other_than(favoured) ? other_bit(on[i]) : 0);
        }
        cost += sum << CHOICE_BITS;
        if (cost < best) best = cost;
    }
    return best;
}

// The shapes of least length, the first among equals; later runs hang below earlier ones, so the last is asked first.
static int64_t choose_shapes(const Pin *pins, Run *run, int n, Shape favoured) {
    uint64_t below[PINS][3] = {0};
    for (int r = n - 1; r >= 0; r--) {
        if (run[r].shape == STRAIGHT)
            below[r][STRAIGHT] = pin_cost(pins, run, n, favoured, run[r].far, r, STRAIGHT, below);
        else
            for (Shape s = LOWER; s <= UPPER; s++) below[r][s] = pin_cost(pins, run, n, favoured, run[r].far, r, s, below);
    }
    uint64_t best = n ? pin_cost(pins, run, n, favoured, run[0].near, -1, STRAIGHT, below) : 0;
    for (int r = 0; r < n; r++)
        if (run[r].shape != STRAIGHT) run[r].shape = best & other_bit(r) ? other_than(favoured) : favoured;
    return best >> CHOICE_BITS;
}

#ifdef EVERY_CHOICE
// The same by the rule's own words: every choice in order, the favoured shape before the other, kept where it is shorter.
static void try_every_choice(const Pin *pins, Run *run, int n, Shape favoured) {
    int bends[PINS], count = 0;
    for (int r = 0; r < n; r++)
        if (run[r].shape != STRAIGHT) bends[count++] = r;
    if (count > EVERY_CHOICE) return;
    int64_t least = INT64_MAX;
    Run kept[PINS];
    for (uint32_t choice = 0; choice < (uint32_t)1 << count; choice++) {
        Leg leg[LEGS];
        for (int i = 0; i < count; i++) run[bends[i]].shape = choice >> (count - 1 - i) & 1 ? other_than(favoured) : favoured;
        int64_t length = length_of(leg, lay_legs(pins, run, n, leg));
        if (length < least) least = length, memcpy(kept, run, n * sizeof *run);
    }
    memcpy(run, kept, n * sizeof *run);
}
#endif

// A sum over pins: 2 to the power of the bent runs leading on, doubled if the run that reached the pin is bent.
static int64_t choices_weighed(const Pin *pins, const Run *run, int n) {
    int64_t sum = 0;
    for (int p = 0; p < PINS; p++) {
        if (!pins[p].there) continue;
        int64_t product = 1;
        for (int r = 0; r < n; r++)
            if (run[r].shape != STRAIGHT && (run[r].near == p || run[r].far == p)) product *= 2;
        sum += product;
    }
    return sum;
}

// Joins the pins by runs: 17.
static Verdict join_pins(const Pin *pins, Run *run, int *runs) {
    if (pins_there(pins) == 0) return refused(17);
    *runs = grow(pins, run);
    return accepted;
}

// Joins the pins by runs, chooses their shapes and lays their legs: 17. The length is that of the sum over pins.
static Verdict shape_pins(const Pin *pins, Shape favoured, Wiring *w) {
    Verdict v = join_pins(pins, w->run, &w->runs);
    if (v.number) return v;
    w->length = choose_shapes(pins, w->run, w->runs, favoured);
#ifdef EVERY_CHOICE
    try_every_choice(pins, w->run, w->runs, favoured);
#endif
    w->legs = lay_legs(pins, w->run, w->runs, w->leg);
    return accepted;
}

static void expect_length(const Wiring *w, int64_t length) {
    if (w->length != length) fprintf(stderr, "the sum over pins is not the length\n"), exit(1);
}

// Wires the pins: 17, 19.
static Verdict wire_pins(const Pin *pins, unsigned room, Shape favoured, Wiring *w) {
    Verdict v = shape_pins(pins, favoured, w);
    if (v.number) return v;
    if ((unsigned)w->legs > room) return refused(19);
    expect_length(w, length_of(w->leg, w->legs));
    w->weighed = choices_weighed(pins, w->run, w->runs);
    return accepted;
}

// The pins of one net of a seat, the others left out: 28, 1, 2, 21.
static Verdict pins_of_net(const Desk *desk, uint32_t seat, uint32_t net, Pin *pins) {
    Verdict v = seat_refusal(desk, seat);
    if (v.number) return v;
    if (no_net(net)) return refused(21);
    memcpy(pins, desk->seats[seat].pins, PINS * sizeof *pins);
    for (int p = 0; p < PINS; p++)
        if (pins[p].net != net) pins[p].there = false;
    return accepted;
}

static Verdict wire_net(const Desk *desk, uint32_t seat, uint32_t net, unsigned room, Shape favoured, Wiring *w) {
    Pin pins[PINS];
    Verdict v = pins_of_net(desk, seat, net, pins);
    return v.number ? v : wire_pins(pins, room, favoured, w);
}

static Verdict wire_bare(const int32_t *xs, unsigned x_count, const int32_t *ys, unsigned y_count, unsigned room, Shape favoured, Wiring *w) {
    Pin pins[PINS] = {0};
    if (x_count != y_count || x_count > PINS) return refused(16);
    for (unsigned i = 0; i < x_count; i++) pins[i] = (Pin){true, {xs[i], ys[i]}, 1, 0};
    if (x_count == 0) return refused(17);
    for (unsigned i = 0; i < x_count; i++)
        if (outside(pins[i].at)) return refused(8);
    if (pins_break_rules(pins)) return refused(9);
    return wire_pins(pins, room, favoured, w);
}

// ---- A clean copper list for the mill ----

// The copper of a net's pins as stretches, which are in the order of the list and none of which can be joined to another: 28, 1, 2, 21, 17, 19.
static Verdict mill_net(const Desk *desk, uint32_t seat, uint32_t net, unsigned room, Shape favoured, Stretch *s, int *segments) {
    Pin pins[PINS];
    Wiring w;
    Verdict v = pins_of_net(desk, seat, net, pins);
    if (v.number) return v;
    v = shape_pins(pins, favoured, &w);
    if (v.number) return v;
    *segments = join_legs(w.leg, w.legs, s);
    expect_length(&w, sum_of(s, *segments));
    return (unsigned)*segments > room ? refused(19) : accepted;
}

// ---- Volts lost to a lamp ----

typedef enum { SPARE, AMPS, WATTS } LoadKind;
typedef struct { LoadKind kind; float size; } Load;
typedef struct { float volts, ohms; } Sheet;

// From `low` to `high`, both ends included; a NaN is not.
static bool from_to(float low, float high, float value) { return value >= low && value <= high; }

// Amps from 0 to 500, watts from 0 to 12,000, or spare.
static bool load_in_range(Load load) { return load.kind == SPARE || from_to(0, load.kind == AMPS ? 500 : 12000, load.size); }

// Whether the sheet and the loads of the pins that are there can be worked with; those of absent pins and of other nets are not looked at.
static bool all_in_range(const Pin *pins, Sheet sheet, const Load *loads) {
    for (int p = 0; p < PINS; p++)
        if (pins[p].there && !load_in_range(loads[p])) return false;
    return from_to(1, 60, sheet.volts) && from_to(0, 0.01f, sheet.ohms);
}

// A load in amps: watts by one division, spare as 0.
static float amps(Load load, float volts) {
    if (load.kind == SPARE) return 0;
    return load.kind == WATTS ? load.size / volts : load.size;
}

// Each run's current: its far pin's load plus the currents of the runs leading on from there, in run order; these are later runs, so the last is asked first.
static void find_currents(const Run *run, int n, const Load *loads, float volts, float *current) {
    for (int r = n - 1; r >= 0; r--) {
        current[r] = amps(loads[run[r].far], volts);
        for (int on = r + 1; on < n; on++)
            if (run[on].near == run[r].far) current[r] += current[on];
    }
}

// The drop of each pin that a run reaches: that of its near pin, which is known by then, plus the run's own. The feed's stays 0, as do those of absent pins.
static void find_drops(const Pin *pins, const Run *run, int n, const float *current, float ohms, float *drop) {
    for (int r = 0; r < n; r++) {
        float steps = distance(pins[run[r].near].at, pins[run[r].far].at);
        float lost = current[r] * ohms;
        lost *= steps;
        drop[run[r].far] = drop[run[r].near] + lost;
    }
}

// The drops of a net's pins, into 32 that are 0: 28, 1, 2, 21, 17, 20.
static Verdict drops_of_net(const Desk *desk, uint32_t seat, uint32_t net, Sheet sheet, const Load *loads, float *drop) {
    Pin pins[PINS];
    Run run[PINS - 1];
    float current[PINS - 1];
    int runs;
    Verdict v = pins_of_net(desk, seat, net, pins);
    if (v.number) return v;
    v = join_pins(pins, run, &runs);
    if (v.number) return v;
    if (!all_in_range(pins, sheet, loads)) return refused(20);
    find_currents(run, runs, loads, sheet.volts, current);
    find_drops(pins, run, runs, current, sheet.ohms, drop);
    return accepted;
}

// ---- Lines read ----

typedef struct { const uint8_t *at; size_t bytes; } Word;

static bool is(Word w, const char *text) { return w.bytes == strlen(text) && memcmp(w.at, text, w.bytes) == 0; }

// One or more digits, with a value of at most `most`.
static bool read_digits(Word w, uint64_t most, uint64_t *value) {
    *value = 0;
    for (size_t i = 0; i < w.bytes; i++) {
        if (w.at[i] < '0' || w.at[i] > '9') return false;
        *value = *value * 10 + (w.at[i] - '0');
        if (*value > most) return false;
    }
    return w.bytes > 0;
}

static bool read_signed(Word w, int32_t *value) {
    uint64_t size;
    bool minus = w.bytes > 0 && w.at[0] == '-';
    if (minus) w.at++, w.bytes--;
    if (!read_digits(w, minus ? 2147483648u : 2147483647u, &size)) return false;
    *value = (int32_t)(minus ? -(int64_t)size : (int64_t)size);
    return true;
}

// The entry of a list that starts at byte `from`: what stands before the next comma, or the rest.
static Word entry_from(Word list, size_t from) {
    Word entry = {list.at + from, 0};
    while (from + entry.bytes < list.bytes && entry.at[entry.bytes] != ',') entry.bytes++;
    return entry;
}

static bool read_list(Word w, int32_t *list, unsigned *count) {
    *count = 0;
    if (is(w, "-")) return true;
    for (size_t i = 0; i <= w.bytes; i++) {
        Word number = entry_from(w, i);
        i += number.bytes;
        if (*count == LIST_NUMBERS || !read_signed(number, &list[*count])) return false;
        ++*count;
    }
    return true;
}

static int hex_digit(uint8_t c) {
    if (c >= '0' && c <= '9') return c - '0';
    if (c >= 'a' && c <= 'f') return c - 'a' + 10;
    return c >= 'A' && c <= 'F' ? c - 'A' + 10 : -1;
}

static bool read_hex(Word w, uint8_t *map, size_t *bytes) {
    *bytes = 0;
    if (is(w, "-")) return true;
    if (w.bytes == 0 || w.bytes % 2 || w.bytes / 2 > MAP_PAIRS) return false;
    for (; *bytes < w.bytes / 2; ++*bytes) {
        int high = hex_digit(w.at[2 * *bytes]), low = hex_digit(w.at[2 * *bytes + 1]);
        if (high < 0 || low < 0) return false;
        map[*bytes] = high << 4 | low;
    }
    return true;
}

static bool read_form(Word w, Form *form) {
    *form = is(w, "old") ? OLD : NEW;
    return *form == OLD || is(w, "new");
}

// The eight hex digits of a float's bits.
static bool read_float(Word w, float *value) {
    uint32_t bits = 0;
    if (w.bytes != 8) return false;
    for (size_t i = 0; i < w.bytes; i++) {
        int digit = hex_digit(w.at[i]);
        if (digit < 0) return false;
        bits = bits << 4 | (uint32_t)digit;
    }
    memcpy(value, &bits, sizeof *value);
    return true;
}

// `s`, or `a` or `w` with the digits of its amps or watts.
static bool read_load(Word w, Load *load) {
    *load = (Load){SPARE, 0};
    if (is(w, "s")) return true;
    if (w.bytes == 0 || (w.at[0] != 'a' && w.at[0] != 'w')) return false;
    load->kind = w.at[0] == 'a' ? AMPS : WATTS;
    return read_float((Word){w.at + 1, w.bytes - 1}, &load->size);
}

// Loads by pin number, into 32 that are spare.
static bool read_loads(Word w, Load *loads) {
    int count = 0;
    if (is(w, "-")) return true;
    for (size_t i = 0; i <= w.bytes; i++) {
        Word load = entry_from(w, i);
        i += load.bytes;
        if (count == PINS || !read_load(load, &loads[count++])) return false;
    }
    return true;
}

// The shape to favour: the word after the first `fewest`, or upper where nothing is said.
static bool read_favour(const Word *word, int words, int fewest, Shape *favoured) {
    *favoured = UPPER;
    if (words == fewest) return true;
    if (words != fewest + 1) return false;
    if (is(word[fewest], "lower")) *favoured = LOWER;
    return *favoured == LOWER || is(word[fewest], "upper");
}

// ---- Answers printed ----

static bool print_verdict(Verdict v) {
    if (v.number == 0) puts("0");
    else if (v.record < 0) printf("refused %d\n", v.number);
    else printf("refused %d record %d\n", v.number, v.record);
    return true;
}

static bool print_wiring(Verdict v, const Wiring *w) {
    static const char *word[] = {"straight", "lower", "upper"};
    if (v.number) return print_verdict(v);
    printf("0 length %lld runs %d legs %d weighed %lld\n", (long long)w->length, w->runs, w->legs, (long long)w->weighed);
    for (int i = 0; i < w->runs; i++) printf("%d %d %s\n", w->run[i].near, w->run[i].far, word[w->run[i].shape]);
    for (int i = 0; i < w->legs; i++) printf("leg %d %d %d %d\n", w->leg[i].a.x, w->leg[i].a.y, w->leg[i].b.x, w->leg[i].b.y);
    return true;
}

static bool print_segments(Verdict v, const Stretch *s, int segments) {
    if (v.number) return print_verdict(v);
    printf("0 segments %d\n", segments);
    for (int i = 0; i < segments; i++)
        if (s[i].upright) printf("segment %d %d %d %d\n", s[i].line, s[i].from, s[i].line, s[i].to);
        else printf("segment %d %d %d %d\n", s[i].from, s[i].line, s[i].to, s[i].line);
    return true;
}

// The 32 drops, each as the eight hex digits of its bits.
static bool print_drops(Verdict v, const float *drop) {
    if (v.number) return print_verdict(v);
    putchar('0');
    for (int p = 0; p < PINS; p++) {
        uint32_t bits;
        memcpy(&bits, &drop[p], sizeof bits);
        printf(" %08x", (unsigned)bits);
    }
    putchar('\n');
    return true;
}

// A map written into a lent buffer, and the buffer: 19.
static bool print_map(Form form, uint16_t job, const Pin *pins, unsigned room) {
    uint8_t buffer[WRITE_ROOM];
    if (pins_there(pins) * record_bytes(form) > room) return print_verdict(refused(19));
    memset(buffer, 0xEE, room);
    printf("0 %zu%s", write_map(form, job, pins, buffer), room ? " " : "");
    for (unsigned i = 0; i < room; i++) printf("%02x", buffer[i]);
    putchar('\n');
    return true;
}

static bool print_written(const Desk *desk, uint32_t seat, unsigned room) {
    Verdict v = seat_refusal(desk, seat);
    if (v.number) return print_verdict(v);
    return print_map(NEW, desk->seats[seat].job, desk->seats[seat].pins, room);
}

static bool print_pins(const Desk *desk, uint32_t seat) {
    if (broken(desk)) return print_verdict(refused(28));
    if (seat >= SEATS) return print_verdict(refused(1));
    const Seat *s = &desk->seats[seat];
    if (!s->open) return puts("closed"), true;
    const Edit *own[RECORDS];
    printf("job %u pins %u standing %u taken %u\n", s->job, pins_there(s->pins), s->standing, owned_by(desk, seat, own) - s->standing);
    for (int p = 0; p < PINS; p++)
        if (s->pins[p].there) printf("pin %d %d %d %u %u\n", p, s->pins[p].at.x, s->pins[p].at.y, s->pins[p].net, s->pins[p].part);
    return true;
}

// ---- A log played ----

enum { WORDS = 7 };

static bool play_bare(const Word *word, int words) {
    int32_t xs[LIST_NUMBERS], ys[LIST_NUMBERS];
    unsigned x_count, y_count;
    uint64_t room;
    Shape favoured;
    Wiring w;
    if (!read_favour(word, words, 4, &favoured)) return false;
    if (!read_digits(word[1], WIRE_ROOM, &room) || !read_list(word[2], xs, &x_count) || !read_list(word[3], ys, &y_count)) return false;
    Verdict v = wire_bare(xs, x_count, ys, y_count, room, favoured, &w);
    return print_wiring(v, &w);
}

static bool play_open(Desk *desk, uint32_t seat, const Word *word) {
    static uint8_t map[MAP_PAIRS];
    size_t bytes;
    uint64_t job;
    Form form;
    if (!read_digits(word[2], 65535, &job) || !read_form(word[3], &form) || !read_hex(word[4], map, &bytes)) return false;
    return print_verdict(open_seat(desk, seat, job, form, map, bytes));
}

// Moves a map of a form into the other.
static bool play_moving(Form form, const Word *word, int words) {
    static uint8_t map[MAP_PAIRS];
    size_t bytes;
    uint64_t job, room;
    Pin pins[PINS] = {0};
    if (words != 4 || !read_digits(word[1], 65535, &job) || !read_digits(word[2], WRITE_ROOM, &room) || !read_hex(word[3], map, &bytes)) return false;
    Verdict v = read_to_move(form, map, bytes, job, pins);
    return v.number ? print_verdict(v) : print_map(form == OLD ? NEW : OLD, job, pins, room);
}

static bool play_wire(const Desk *desk, uint32_t seat, const Word *word, int words) {
    uint64_t net, room;
    Shape favoured;
    Wiring w;
    if (!read_favour(word, words, 4, &favoured) || !read_digits(word[2], UINT32_MAX, &net) || !read_digits(word[3], WIRE_ROOM, &room)) return false;
    Verdict v = wire_net(desk, seat, net, room, favoured, &w);
    return print_wiring(v, &w);
}

static bool play_mill(const Desk *desk, uint32_t seat, const Word *word, int words) {
    uint64_t net, room;
    Shape favoured;
    Stretch s[LEGS];
    int segments = 0;
    if (!read_favour(word, words, 4, &favoured) || !read_digits(word[2], UINT32_MAX, &net) || !read_digits(word[3], WIRE_ROOM, &room)) return false;
    Verdict v = mill_net(desk, seat, net, room, favoured, s, &segments);
    return print_segments(v, s, segments);
}

// Loads that are not said are spare, and drops are 0 until they are found.
static bool play_drops(const Desk *desk, uint32_t seat, const Word *word, int words) {
    uint64_t net;
    Sheet sheet;
    Load loads[PINS] = {0};
    float drop[PINS] = {0};
    if (words != 6 || !read_digits(word[2], UINT32_MAX, &net)) return false;
    if (!read_float(word[3], &sheet.volts) || !read_float(word[4], &sheet.ohms) || !read_loads(word[5], loads)) return false;
    Verdict v = drops_of_net(desk, seat, net, sheet, loads, drop);
    return print_drops(v, drop);
}

static bool play_place(Desk *desk, uint32_t seat, const Word *word) {
    uint64_t pin, net, part;
    Place at;
    if (!read_digits(word[2], UINT32_MAX, &pin) || !read_signed(word[3], &at.x) || !read_signed(word[4], &at.y)) return false;
    if (!read_digits(word[5], UINT32_MAX, &net) || !read_digits(word[6], UINT32_MAX, &part)) return false;
    return print_verdict(place_pin(desk, seat, pin, at, net, part));
}

static bool play_move(Desk *desk, uint32_t seat, const Word *word) {
    uint64_t pin;
    Place at;
    if (!read_digits(word[2], UINT32_MAX, &pin) || !read_signed(word[3], &at.x) || !read_signed(word[4], &at.y)) return false;
    return print_verdict(move_pin(desk, seat, pin, at));
}

// Plays a call and prints its answer; false where the words are not a call.
static bool play_words(Desk *desk, const Word *word, int words) {
    uint64_t seat, n;
    if (is(word[0], "bare")) return play_bare(word, words);
    if (is(word[0], "over")) return play_moving(OLD, word, words);
    if (is(word[0], "back")) return play_moving(NEW, word, words);
    if (words < 2 || !read_digits(word[1], UINT32_MAX, &seat)) return false;
    if (is(word[0], "wire")) return play_wire(desk, seat, word, words);
    if (is(word[0], "mill")) return play_mill(desk, seat, word, words);
    if (is(word[0], "drops")) return play_drops(desk, seat, word, words);
    if (words == 2) {
        if (is(word[0], "close")) return print_verdict(close_seat(desk, seat));
        if (is(word[0], "undo")) return print_verdict(undo(desk, seat));
        if (is(word[0], "redo")) return print_verdict(redo(desk, seat));
        return is(word[0], "pins") && print_pins(desk, seat);
    }
    if (words == 3) {
        if (is(word[0], "remove")) return read_digits(word[2], UINT32_MAX, &n) && print_verdict(remove_pin(desk, seat, n));
        return is(word[0], "write") && read_digits(word[2], WRITE_ROOM, &n) && print_written(desk, seat, n);
    }
    if (words == 5) {
        if (is(word[0], "open")) return play_open(desk, seat, word);
        return is(word[0], "move") && play_move(desk, seat, word);
    }
    return words == 7 && is(word[0], "place") && play_place(desk, seat, word);
}

// True where the line is skipped or played.
static bool play_line(Desk *desk, const uint8_t *line, size_t bytes) {
    Word word[WORDS];
    int words = 0;
    if (bytes > LINE_BYTES) return false;
    for (size_t i = 0; i < bytes;) {
        if (line[i] == ' ') {
            i++;
            continue;
        }
        size_t start = i;
        while (i < bytes && line[i] != ' ') i++;
        if (words == 0 && line[start] == '#') return true;
        if (words == WORDS) return false;
        word[words++] = (Word){line + start, i - start};
    }
    return words == 0 || play_words(desk, word, words);
}

int main(void) {
    static Desk desk;
    // Room for the longest line, its carriage return, and one byte more to tell a longer one by.
    static uint8_t line[LINE_BYTES + 2];
    unsigned long long number = 0;
    for (int c = getchar(); c != EOF; c = getchar()) {
        size_t bytes = 0;
        int last = 0;
        for (; c != EOF && c != '\n'; c = getchar()) {
            if (bytes < sizeof line) line[bytes++] = c;
            last = c;
        }
        if (bytes < sizeof line && last == '\r') bytes--;
        number++;
        if (!play_line(&desk, line, bytes)) printf("line %llu: not a call\n", number);
    }
    return 0;
}
