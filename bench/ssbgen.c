/*
 * ssbgen: the tables of the Star Schema Benchmark, revision 3, and refreshes of them.
 *
 *   ssbgen tables  --scale S [--seed N] --out DIR     writes the five .tbl files into DIR
 *   ssbgen scripts --scale S [--seed N] --out PREFIX --scripts C --refreshes N
 *                                                    writes PREFIX-1.script to PREFIX-C.script, each of N refreshes
 *                                                    that in turn add one new order and withdraw one of the tables';
 *                                                    all of the scripts' orders are different
 *
 * Every value depends only on the seed, the scale and the row's number, so the same words always give the
 * same bytes.
 *
 * cc -O2 -o ssbgen ssbgen.c
 */
#include <errno.h>
#include <stdint.h>
#include <stdio.h>
#include <stdlib.h>
#include <string.h>
#include <sys/stat.h>

/* ---- random numbers: one stream for each (kind of row, row number) ---- */

static uint64_t seed = 20090605;

static uint64_t scramble(uint64_t x) {
    x ^= x >> 30; x *= 0xbf58476d1ce4e5b9ull;
    x ^= x >> 27; x *= 0x94d049bb133111ebull;
    return x ^ (x >> 31);
}

/* The numbers decide the values. */
enum kind { CUSTOMER = 1, SUPPLIER, PART, ORDER, NEW_ORDER, CUSTOMER_DECK, SUPPLIER_DECK, PART_DECK };

typedef struct { uint64_t state; } Random;

static Random random_for(enum kind kind, uint64_t row) {
    Random r = { scramble(scramble(seed + 0x9e3779b97f4a7c15ull * kind) + row) };
    return r;
}

/* A whole number from low to high, both included. */
static uint64_t pick(Random *r, uint64_t low, uint64_t high) {
    r->state += 0x9e3779b97f4a7c15ull;
    return low + (uint64_t)(((unsigned __int128)scramble(r->state) * (high - low + 1)) >> 64);
}

/* ---- words ---- */

static const struct { const char *name; int region; } nations[25] = {
    {"ALGERIA", 0}, {"ARGENTINA", 1}, {"BRAZIL", 1}, {"CANADA", 1}, {"EGYPT", 4},
    {"ETHIOPIA", 0}, {"FRANCE", 3}, {"GERMANY", 3}, {"INDIA", 2}, {"INDONESIA", 2},
    {"IRAN", 4}, {"IRAQ", 4}, {"JAPAN", 2}, {"JORDAN", 4}, {"KENYA", 0},
    {"MOROCCO", 0}, {"MOZAMBIQUE", 0}, {"PERU", 1}, {"CHINA", 2}, {"ROMANIA", 3},
    {"SAUDI ARABIA", 4}, {"VIETNAM", 2}, {"RUSSIA", 3}, {"UNITED KINGDOM", 3}, {"UNITED STATES", 1},
};
static const char *regions[5] = {"AFRICA", "AMERICA", "ASIA", "EUROPE", "MIDDLE EAST"};
static const char *segments[5] = {"AUTOMOBILE", "BUILDING", "FURNITURE", "HOUSEHOLD", "MACHINERY"};
static const char *priorities[5] = {"1-URGENT", "2-HIGH", "3-MEDIUM", "4-NOT SPECI", "5-LOW"};
static const char *ship_modes[7] = {"REG AIR", "AIR", "RAIL", "SHIP", "TRUCK", "MAIL", "FOB"};
static const char *colors[] = {
    "almond", "antique", "aquamarine", "azure", "beige", "bisque", "black", "blanched", "blue", "blush",
    "brown", "burlywood", "burnished", "chartreuse", "chiffon", "chocolate", "coral", "cornflower",
    "cornsilk", "cream", "cyan", "dark", "deep", "dim", "dodger", "drab", "firebrick", "floral",
    "forest", "frosted", "gainsboro", "ghost", "goldenrod", "green", "grey", "honeydew", "hot",
    "indian", "ivory", "khaki", "lace", "lavender", "lawn", "lemon", "light", "lime", "linen",
    "magenta", "maroon", "medium", "metallic", "midnight", "mint", "misty", "moccasin", "navajo",
    "navy", "olive", "orange", "orchid", "pale", "papaya", "peach", "peru", "pink", "plum", "powder",
    "puff", "purple", "red", "rose", "rosy", "royal", "saddle", "salmon", "sandy", "seashell",
    "sienna", "sky", "slate", "smoke", "snow", "spring", "steel", "tan", "thistle", "tomato",
    "turquoise", "violet", "wheat", "white", "yellow",
};
#define COLORS (sizeof colors / sizeof colors[0])
static const char *type1[6] = {"STANDARD", "SMALL", "MEDIUM", "LARGE", "ECONOMY", "PROMO"};
static const char *type2[5] = {"ANODIZED", "BURNISHED", "PLATED", "POLISHED", "BRUSHED"};
static const char *type3[5] = {"TIN", "NICKEL", "BRASS", "STEEL", "COPPER"};
static const char *box1[5] = {"SM", "LG", "MED", "JUMBO", "WRAP"};
static const char *box2[8] = {"CASE", "BOX", "BAG", "JAR", "PKG", "PACK", "CAN", "DRUM"};
static const char *months[12] = {"January", "February", "March", "April", "May", "June", "July",
    "August", "September", "October", "November", "December"};
static const char *week_days[7] = {"Sunday", "Monday", "Tuesday", "Wednesday", "Thursday", "Friday", "Saturday"};

/* ---- sizes ---- */

static double scale = 1;
static uint64_t customers, suppliers, parts, orders;

static uint64_t scaled(double at_one, uint64_t least) {
    uint64_t n = (uint64_t)(at_one * scale + 0.5);
    return n < least ? least : n;
}

static void set_sizes(void) {
    /* The least numbers keep every city among the customers and the suppliers and
       every brand among the parts, so that small scales keep the queries' shares. */
    customers = scaled(30000, 500);
    suppliers = scaled(2000, 250);
    orders = scaled(1500000, 1);
    if (scale <= 1) {
        parts = scaled(200000, 2000);
    } else {
        double log2 = 0, s = scale;
        while (s >= 2) { s /= 2; log2 += 1; }
        log2 += s - 1;                  /* between powers of two: a straight line */
        parts = (uint64_t)(200000 * (1 + log2));
    }
}

/* ---- calendar: 1992-01-01 is day 0 and a Wednesday; 2,556 days end at 1998-12-30 ---- */

enum { DATES = 2556, ORDER_DATES = 2406 };  /* orders end at 1998-08-02, as dbgen's do */

typedef struct { int year, month, day, day_of_year, last_of_month; uint32_t key; } Day;
static Day days[DATES];

static void set_calendar(void) {
    static const int lengths[12] = {31, 28, 31, 30, 31, 30, 31, 31, 30, 31, 30, 31};
    int year = 1992, month = 1, day = 1, day_of_year = 1;
    for (int i = 0; i < DATES; i++) {
        int length = lengths[month - 1] + (month == 2 && year % 4 == 0);
        days[i] = (Day){year, month, day, day_of_year, day == length,
                        (uint32_t)(year * 10000 + month * 100 + day)};
        day_of_year++;
        if (++day > length) {
            day = 1;
            if (++month > 12) { month = 1; year++; day_of_year = 1; }
        }
    }
}

/* ---- output ---- */

static FILE *open_out(const char *dir, const char *name) {
    char path[4096];
    snprintf(path, sizeof path, "%s%s", dir, name);
    FILE *f = fopen(path, "wb");
    if (!f) { fprintf(stderr, "ssbgen: cannot write %s: %s\n", path, strerror(errno)); exit(1); }
    setvbuf(f, NULL, _IOFBF, 1 << 20);
    return f;
}

static void close_out(FILE *f) {
    if (ferror(f) | fclose(f)) { fprintf(stderr, "ssbgen: write failed\n"); exit(1); }
}

static char *put_number(char *p, uint64_t v) {
    char digits[20];
    int n = 0;
    do digits[n++] = (char)('0' + v % 10); while (v /= 10);
    while (n) *p++ = digits[--n];
    *p++ = '|';
    return p;
}

static char *put_text(char *p, const char *s) {
    while (*s) *p++ = *s++;
    *p++ = '|';
    return p;
}

/* ---- dimensions ---- */

/* Row `row` (from 1) gets a card of a deck of `size` cards; a fresh deck is shuffled for
   each `size` rows, so all cards come equally often. */
static int deal(enum kind kind, uint64_t row, int size, int *deck) {
    int place = (int)((row - 1) % (uint64_t)size);
    if (place == 0) {
        Random r = random_for(kind, (row - 1) / (uint64_t)size);
        for (int i = 0; i < size; i++) deck[i] = i;
        for (int i = size - 1; i > 0; i--) {
            int j = (int)pick(&r, 0, (uint64_t)i), t = deck[i];
            deck[i] = deck[j]; deck[j] = t;
        }
    }
    return deck[place];
}

static void address(Random *r, char *out) {
    static const char set[] = "0123456789abcdefghijklmnopqrstuvwxyzABCDEFGHIJKLMNOPQRSTUVWXYZ";
    int n = (int)pick(r, 10, 25);
    for (int i = 0; i < n; i++) out[i] = set[pick(r, 0, sizeof set - 2)];
    out[n] = 0;
}

static void party(FILE *f, enum kind kind, enum kind deck_kind, uint64_t row, const char *title, int *deck) {
    Random r = random_for(kind, row);
    int city = deal(deck_kind, row, 250, deck);
    const char *nation = nations[city / 10].name;
    char where[32];
    address(&r, where);
    int area = (int)pick(&r, 100, 999), exchange = (int)pick(&r, 100, 999), local = (int)pick(&r, 1000, 9999);
    fprintf(f, "%llu|%s#%09llu|%s|%-9.9s%d|%s|%s|%d-%03d-%03d-%04d|", (unsigned long long)row, title,
            (unsigned long long)row, where, nation, city % 10, nation, regions[nations[city / 10].region],
            city / 10 + 10, area, exchange, local);
    if (kind == CUSTOMER) fprintf(f, "%s|", segments[pick(&r, 0, 4)]);
    fputc('\n', f);
}

static void write_dimensions(const char *dir) {
    static int deck[1000];
    FILE *f = open_out(dir, "/customer.tbl");
    for (uint64_t i = 1; i <= customers; i++) party(f, CUSTOMER, CUSTOMER_DECK, i, "Customer", deck);
    close_out(f);

    f = open_out(dir, "/supplier.tbl");
    for (uint64_t i = 1; i <= suppliers; i++) party(f, SUPPLIER, SUPPLIER_DECK, i, "Supplier", deck);
    close_out(f);

    f = open_out(dir, "/part.tbl");
    for (uint64_t i = 1; i <= parts; i++) {
        Random r = random_for(PART, i);
        int card = deal(PART_DECK, i, 1000, deck);
        int maker = card / 200 + 1, category = card / 40 % 5 + 1, brand = card % 40 + 1;
        const char *first = colors[pick(&r, 0, COLORS - 1)], *second = colors[pick(&r, 0, COLORS - 1)];
        fprintf(f, "%llu|%s %s|MFGR#%d|MFGR#%d%d|MFGR#%d%d%d|%s|", (unsigned long long)i, first, second,
                maker, maker, category, maker, category, brand, colors[pick(&r, 0, COLORS - 1)]);
        const char *a = type1[pick(&r, 0, 5)], *b = type2[pick(&r, 0, 4)], *c = type3[pick(&r, 0, 4)];
        int size = (int)pick(&r, 1, 50);
        const char *d = box1[pick(&r, 0, 4)], *e = box2[pick(&r, 0, 7)];
        fprintf(f, "%s %s %s|%d|%s %s|\n", a, b, c, size, d, e);
    }
    close_out(f);

    f = open_out(dir, "/date.tbl");
    for (int i = 0; i < DATES; i++) {
        Day d = days[i];
        int week_day = (i + 3) % 7;     /* 0 is Sunday */
        const char *season = d.month >= 11 ? "Christmas" : d.month >= 9 ? "Fall" : d.month >= 5 ? "Summer"
                           : d.month >= 4 ? "Spring" : "Winter";
        int holiday = (d.month == 1 && d.day == 1) || (d.month == 12 && d.day == 24)
                   || (d.day == 20 && d.month != 1 && d.month != 3 && d.month != 6 && d.month != 12);
        fprintf(f, "%u|%s %d, %d|%s|%s|%d|%d|%.3s%d|%d|%d|%d|%d|%d|%s|%d|%d|%d|%d|\n", d.key,
                months[d.month - 1], d.day, d.year, week_days[week_day], months[d.month - 1], d.year,
                d.year * 100 + d.month, months[d.month - 1], d.year, week_day + 1, d.day, d.day_of_year,
                d.month, (d.day_of_year - 1) / 7 + 1, season, week_day == 6, d.last_of_month, holiday,
                week_day >= 1 && week_day <= 5);
    }
    close_out(f);
}

/* ---- orders ---- */

/* The tables' orders use the first 8 of every 32 keys, as TPC-H's do, and new ones the next 8. */
static uint64_t order_key(enum kind kind, uint64_t row) {
    return (row >> 3 << 5) + (kind == NEW_ORDER ? 8 : 0) + (row & 7);
}

typedef struct {
    uint64_t part, supplier, quantity, price, discount, revenue, cost, tax;
    uint32_t commit_date;
    const char *mode;
} Item;

/* Writes the lines of one order, each after the given text, and says how many. */
static uint64_t write_order(FILE *f, const char *before, enum kind kind, uint64_t row) {
    Random r = random_for(kind, row);
    uint64_t key = order_key(kind, row), customer = pick(&r, 1, customers);
    uint64_t date = pick(&r, 0, ORDER_DATES - 1), total = 0, count = pick(&r, 1, 7);
    const char *priority = priorities[pick(&r, 0, 4)];
    Item items[7];
    for (uint64_t n = 0; n < count; n++) {
        Item *item = &items[n];
        item->part = pick(&r, 1, parts);
        item->supplier = pick(&r, 1, suppliers);
        item->quantity = pick(&r, 1, 50);
        item->discount = pick(&r, 0, 10);
        item->tax = pick(&r, 0, 8);
        item->commit_date = days[date + pick(&r, 30, 90)].key;
        item->mode = ship_modes[pick(&r, 0, 6)];
        uint64_t each = 90000 + item->part / 10 % 20001 + item->part % 1000 * 100;
        item->price = each * item->quantity;
        item->revenue = item->price * (100 - item->discount) / 100;
        item->cost = each * 6 / 10;
        total += item->revenue * (100 + item->tax) / 100;
    }
    for (uint64_t n = 0; n < count; n++) {
        char line[512], *p = line;
        const Item *item = &items[n];
        for (const char *b = before; *b; b++) *p++ = *b;
        p = put_number(p, key);
        p = put_number(p, n + 1);
        p = put_number(p, customer);
        p = put_number(p, item->part);
        p = put_number(p, item->supplier);
        p = put_number(p, days[date].key);
        p = put_text(p, priority);
        p = put_number(p, 0);
        p = put_number(p, item->quantity);
        p = put_number(p, item->price);
        p = put_number(p, total);
        p = put_number(p, item->discount);
        p = put_number(p, item->revenue);
        p = put_number(p, item->cost);
        p = put_number(p, item->tax);
        p = put_number(p, item->commit_date);
        p = put_text(p, item->mode);
        *p++ = '\n';
        fwrite(line, 1, (size_t)(p - line), f);
    }
    return count;
}

static void write_lineorder(const char *dir) {
    uint64_t lines = 0;
    FILE *f = open_out(dir, "/lineorder.tbl");
    for (uint64_t i = 1; i <= orders; i++) lines += write_order(f, "", ORDER, i);
    close_out(f);
    fprintf(stderr, "ssbgen: scale %g seed %llu: %llu customers, %llu suppliers, %llu parts, %d dates, "
            "%llu orders, %llu lines\n", scale, (unsigned long long)seed, (unsigned long long)customers,
            (unsigned long long)suppliers, (unsigned long long)parts, DATES, (unsigned long long)orders,
            (unsigned long long)lines);
}

/* ---- scripts ---- */

static uint64_t greatest_common_divisor(uint64_t a, uint64_t b) {
    while (b) { uint64_t t = a % b; a = b; b = t; }
    return a;
}

/* The order withdrawn as number n (from 0): a rearrangement of all orders of the tables. */
static uint64_t withdrawn(uint64_t n) {
    static uint64_t step = 0;
    if (!step) {
        step = (uint64_t)(orders * 0.6180339887) | 1;
        while (greatest_common_divisor(step, orders) != 1) step += 2;
    }
    return 1 + (uint64_t)(((unsigned __int128)step * n + scramble(seed) % orders) % orders);
}

static void write_scripts(const char *prefix, uint64_t scripts, uint64_t refreshes) {
    if ((refreshes + 1) / 2 * scripts > orders) {
        fputs("ssbgen: the scripts would withdraw more orders than there are\n", stderr);
        exit(2);
    }
    for (uint64_t s = 0; s < scripts; s++) {
        char name[32];
        snprintf(name, sizeof name, "-%llu.script", (unsigned long long)(s + 1));
        FILE *f = open_out(prefix, name);
        for (uint64_t i = 0; i < refreshes; i++) {
            uint64_t order = i / 2 * scripts + s;
            fputs("begin\n", f);
            if (i % 2 == 0) {
                fputs("add\n", f);
                write_order(f, "line|", NEW_ORDER, order + 1);
            } else fprintf(f, "withdraw|%llu\n", (unsigned long long)order_key(ORDER, withdrawn(order)));
            fputs("commit\n", f);
        }
        close_out(f);
    }
}

static void usage(void) {
    fputs("usage: ssbgen tables  --scale S [--seed N] --out DIR\n"
          "       ssbgen scripts --scale S [--seed N] --out PREFIX --scripts C --refreshes N\n", stderr);
    exit(2);
}

int main(int argc, char **argv) {
    const char *out = NULL;
    uint64_t scripts = 1, refreshes = 0;
    if (argc < 2) usage();
    for (int i = 2; i < argc; i += 2) {
        if (i + 1 == argc) usage();
        if (!strcmp(argv[i], "--scale")) scale = atof(argv[i + 1]);
        else if (!strcmp(argv[i], "--seed")) seed = strtoull(argv[i + 1], NULL, 10);
        else if (!strcmp(argv[i], "--scripts")) scripts = strtoull(argv[i + 1], NULL, 10);
        else if (!strcmp(argv[i], "--refreshes")) refreshes = strtoull(argv[i + 1], NULL, 10);
        else if (!strcmp(argv[i], "--out")) out = argv[i + 1];
        else usage();
    }
    if (!out || !(scale > 0)) usage();
    set_sizes();
    set_calendar();
    if (!strcmp(argv[1], "tables")) {
        mkdir(out, 0777);
        write_dimensions(out);
        write_lineorder(out);
    } else if (!strcmp(argv[1], "scripts")) write_scripts(out, scripts, refreshes);
    else usage();
    return 0;
}
