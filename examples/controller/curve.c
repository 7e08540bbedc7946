/* curve.c - what a dearer index does: the least list at each of a row of factors, as a table and as a picture.
 *
 *   curve PICTURE OLD NEW [EN EM [F]]
 *
 * OLD is the store and NEW the version; finding.c finds the list between them. EN, EM and F are the price in use, 12, 16 and 1024 where they are not
 * given. The list is estimated at some forty factors and at F. From one factor to the next index bytes must not grow, stored bytes must not fall, neither
 * may change without the other, the least cost must not fall, and no match that was given up may be kept; and at F no list of the row may cost less than
 * that of F. Where one of these does not hold, the program says so and draws nothing. Else the table goes to standard output, and the picture, in SVG,
 * to the file PICTURE.
 *
 * In order: the row of factors; the statement; the table; numbers and names in the picture; its places; its parts. Exit 0, else 1 and one line.
 */
#include <errno.h>
#include <inttypes.h>
#include <math.h>
#include <stdio.h>
#include <string.h>

#include "finding.h"

const char program[] = "curve", usage[] = "usage: curve PICTURE OLD NEW [EN EM [F]]";

/* ---- The row of factors ---- */

/* The least list at a factor: what estimate answers, its index bytes, and what it would cost at the factor in use. */
struct point {
    uint32_t f, entries, stored;
    uint64_t cost, index, total;
};

#define POINTS_MOST 64

/* The points; and, while they are estimated, the choice at the last factor. */
struct curve {
    const struct deposit *deposit;
    struct point at[POINTS_MOST];
    size_t count;
    uint8_t choice[RECORDS_MOST];
};

/* Puts a factor into its place in the row, where it is not there. */
static void put_factor(struct curve *c, uint32_t f)
{
    size_t i = c->count;
    while (i > 0 && c->at[i - 1].f > f)
        i--;
    if (i > 0 && c->at[i - 1].f == f)
        return;
    memmove(&c->at[i + 1], &c->at[i], (c->count - i) * sizeof *c->at);
    c->at[i].f = f;
    c->count++;
}

/* Three factors to a doubling, as even as whole numbers are, then the greatest; and the factor in use. */
static void put_factors(struct curve *c)
{
    c->count = 0;
    for (uint32_t power = 1; power <= F_MOST; power *= 2) {
        put_factor(c, power);
        put_factor(c, power * 5 / 4);
        put_factor(c, power * 8 / 5);
    }
    put_factor(c, F_MOST);
    put_factor(c, c->deposit->f);
}

/* Index bytes are what the cost has beside the stored bytes, at so much each. */
static void set_point(const struct deposit *d, struct point *p, struct answer answer)
{
    const uint64_t stored = DISK_BYTE * (uint64_t)answer.stored;
    if (answer.cost < stored || (answer.cost - stored) % p->f != 0)
        fail("F %" PRIu32 ": cost %" PRIu64 " is not %" PRIu64 " for %" PRIu32 " stored bytes and F for each index byte", p->f, answer.cost, stored,
             answer.stored);
    p->entries = answer.entries;
    p->stored = answer.stored;
    p->cost = answer.cost;
    p->index = (answer.cost - stored) / p->f;
    p->total = d->f * p->index + stored;
}

/* ---- The statement ---- */

/* What is wrong between a factor and a greater one; NULL where nothing is. */
static const char *wrong_between(const struct point *p, const struct point *q)
{
    if (q->index > p->index)
        return "index bytes grow";
    if (q->stored < p->stored)
        return "stored bytes fall";
    if ((q->index == p->index) != (q->stored == p->stored))
        return "index bytes and stored bytes do not change together";
    if (q->cost < p->cost)
        return "the least cost falls";
    return NULL;
}

static void hold_between(const struct point *p, const struct point *q)
{
    const char *wrong = wrong_between(p, q);
    if (wrong != NULL)
        fail("%s: F %" PRIu32 " has %" PRIu64 " index bytes, %" PRIu32 " stored bytes, cost %" PRIu64 "; F %" PRIu32 " has %" PRIu64
             " index bytes, %" PRIu32 " stored bytes, cost %" PRIu64, wrong, p->f, p->index, p->stored, p->cost, q->f, q->index, q->stored, q->cost);
}

/* A record with choice byte 1, a match given up, has 1 at every greater factor; a new one always has. */
static void hold_choice(struct curve *c, uint32_t f, const uint8_t *choice)
{
    for (size_t i = 0; i < c->deposit->found.records; i++)
        if (choice[i] < c->choice[i])
            fail("a match given up is kept: record %zu at F %" PRIu32, i, f);
    memcpy(c->choice, choice, RECORDS_MOST);
}

/* The point of the factor in use. At that factor no other point's list costs less. */
static const struct point *point_in_use(const struct curve *c)
{
    const struct point *used = c->at, *least = c->at;
    for (size_t i = 1; i < c->count; i++) {
        if (c->at[i].f == c->deposit->f)
            used = &c->at[i];
        if (c->at[i].total < least->total)
            least = &c->at[i];
    }
    if (least->total < used->total)
        fail("at F %" PRIu32 ", in use, another list costs less: F %" PRIu32 " has %" PRIu64 " index bytes, %" PRIu32 " stored bytes, together %.2f disk"
             " bytes; F %" PRIu32 " has %" PRIu64 " index bytes, %" PRIu32 " stored bytes, together %.2f", used->f, used->f, used->index, used->stored,
             in_disk_bytes(used->total), least->f, least->index, least->stored, in_disk_bytes(least->total));
    return used;
}

/* Estimates every point and holds each to the one before it. */
static void estimate_curve(struct curve *c)
{
    put_factors(c);
    for (size_t i = 0; i < c->count; i++) {
        const struct estimated e = estimate_at(c->deposit, c->at[i].f);
        set_point(c->deposit, &c->at[i], e.answer);
        if (i > 0)
            hold_between(&c->at[i - 1], &c->at[i]);
        hold_choice(c, c->at[i].f, e.choice);
    }
}

/* ---- The table ---- */

static void print_table(const struct curve *c, const struct point *used)
{
    printf("%5s %11s %8s %12s %13s %19s %22s\n", "F", "disk bytes", "entries", "index bytes", "stored bytes", "cost in disk bytes", "total at the F in use");
    for (size_t i = 0; i < c->count; i++) {
        const struct point *p = &c->at[i];
        printf("%5" PRIu32 " %11.4f %8" PRIu32 " %12" PRIu64 " %13" PRIu32 " %19.2f %22.2f%s\n", p->f, in_disk_bytes(p->f), p->entries, p->index,
               p->stored, in_disk_bytes(p->cost), in_disk_bytes(p->total), p == used ? "  in use" : "");
    }
}

static void print_report(const struct curve *c, const struct point *used, const char *old, const char *new)
{
    const struct deposit *d = c->deposit;
    printf("store %s, %zu bytes; version %s, %zu bytes; EN %" PRIu32 ", EM %" PRIu32 ", F in use %" PRIu32 "\n", old, d->store.length, new,
           d->version.length, d->en, d->em, d->f);
    print_found(d);
    printf("\n");
    print_table(c, used);
    printf("\nheld at all %zu factors: a dearer index has no more index bytes and no fewer stored bytes\n", c->count);
}

/* ---- Numbers and names in the picture ---- */

struct text {
    char at[160];
};

/* A number with so many decimals, and a comma before each three digits. */
static struct text grouped(double number, int decimals)
{
    char digits[40];
    struct text t;
    size_t n = 0;
    snprintf(digits, sizeof digits, "%.*f", decimals, number);
    const size_t whole = strcspn(digits, ".");
    for (size_t i = 0; digits[i] != '\0'; i++) {
        if (i > 0 && i < whole && (whole - i) % 3 == 0)
            t.at[n++] = ',';
        t.at[n++] = digits[i];
    }
    t.at[n] = '\0';
    return t;
}

/* The characters of a file's name that fit into the picture. */
#define NAME_MOST 24

/* What stands for a character in the text of an element; NULL where it stands for itself. */
static const char *entity_of(char c)
{
    switch (c) {
    case '&': return "&amp;";
    case '<': return "&lt;";
    case '>': return "&gt;";
    case '"': return "&quot;";
    default: return NULL;
    }
}

/* The last part of a path, as text of an element; a longer one is cut, and a byte that is no printable ASCII character is shown as '?'. */
static struct text name_of(const char *path)
{
    struct text t = { "" };
    const char *slash = strrchr(path, '/');
    const char *name = slash == NULL ? path : slash + 1;
    const size_t length = strlen(name), shown = length > NAME_MOST ? NAME_MOST - 2 : length;
    for (size_t i = 0; i < shown; i++) {
        const char plain[] = { name[i] < ' ' || name[i] > '~' ? '?' : name[i], '\0' };
        const char *entity = entity_of(name[i]);
        strcat(t.at, entity == NULL ? plain : entity);
    }
    if (shown < length)
        strcat(t.at, "..");
    return t;
}

/* ---- Its places ---- */

/* In pixels: the whole; the plot from left to right, each doubling of F as wide as the others; the lines of the label; the upper and the lower panel. */
enum {
    WIDTH = 760, HEIGHT = 590, LEFT = 112, DOUBLING = 38, RIGHT = LEFT + 16 * DOUBLING, LABEL = 74, LINE = 18, PANEL = 180, UPPER = 128, LOWER = 332,
    BOTTOM = LOWER + PANEL
};

/* One of the two quantities, drawn in a panel of its own. */
struct panel {
    const char *class, *name, *colour;
    int top;
    uint64_t step, most;
};

static uint64_t value_of(const struct panel *panel, const struct point *p)
{
    return panel->top == UPPER ? p->index : p->stored;
}

static double place_across(double f)
{
    return LEFT + DOUBLING * log2(f);
}

static double place_down(const struct panel *panel, uint64_t value)
{
    return panel->top + PANEL - PANEL * (double)value / (double)panel->most;
}

/* The least of 1, 2, 5, 10, 20, 50 and so on of which five reach a value. */
static uint64_t round_step(uint64_t value)
{
    uint64_t step = 1;
    for (int i = 0; 5 * step < value; i++)
        step = i % 3 == 1 ? step / 2 * 5 : step * 2;
    return step;
}

/* A panel goes from 0 to the first round number that no point passes. */
static struct panel panel_of(const struct curve *c, const char *class, const char *name, const char *colour, int top)
{
    struct panel panel = { class, name, colour, top, 1, 1 };
    const uint64_t first = value_of(&panel, &c->at[0]), last = value_of(&panel, &c->at[c->count - 1]), greater = first > last ? first : last;
    panel.step = round_step(greater);
    panel.most = greater == 0 ? 1 : (greater + panel.step - 1) / panel.step * panel.step;
    return panel;
}

/* ---- Its parts ---- */

static void draw_title(FILE *file, const struct deposit *d, const char *old, const char *new)
{
    fprintf(file, "<svg xmlns=\"http://www.w3.org/2000/svg\" viewBox=\"0 0 %d %d\" width=\"%d\" height=\"%d\" font-family=\"sans-serif\""
            " font-size=\"13\" fill=\"#222\">\n<rect width=\"%d\" height=\"%d\" fill=\"#fff\"/>\n", WIDTH, HEIGHT, WIDTH, HEIGHT, WIDTH, HEIGHT);
    fprintf(file, "<text x=\"16\" y=\"28\" font-size=\"16\" font-weight=\"bold\">Index bytes and stored bytes by factor, at EN %" PRIu32 " and EM %"
            PRIu32 "</text>\n<text x=\"16\" y=\"48\">%s against %s</text>\n", d->en, d->em, name_of(new).at, name_of(old).at);
}

/* A tick at each power of 4 up to 65,536, with F and what it is in disk bytes, 1/256 to 256. */
static void draw_factor_axis(FILE *file)
{
    fprintf(file, "<g text-anchor=\"middle\">\n");
    for (int power = 0; power <= 16; power += 2) {
        const int x = LEFT + DOUBLING * power;
        fprintf(file, "<path d=\"M%d %dv%dM%d %dv%d\" stroke=\"#ddd\"/>\n", x, UPPER, PANEL, x, LOWER, PANEL);
        fprintf(file, "<text x=\"%d\" y=\"%d\">%s</text>\n", x, BOTTOM + 20, grouped(1 << power, 0).at);
        fprintf(file, "<text x=\"%d\" y=\"%d\">%s%d</text>\n", x, BOTTOM + 38, power < 8 ? "1/" : "", power < 8 ? 256 >> power : 1 << (power - 8));
    }
    fprintf(file, "<text x=\"%d\" y=\"%d\">what an index byte is worth (log scale): F, and F / 256 in disk bytes</text>\n</g>\n", (LEFT + RIGHT) / 2,
            BOTTOM + 62);
    fprintf(file, "<g text-anchor=\"end\">\n<text x=\"%d\" y=\"%d\">F</text>\n<text x=\"%d\" y=\"%d\">disk bytes</text>\n</g>\n", LEFT - 34, BOTTOM + 20,
            LEFT - 34, BOTTOM + 38);
}

/* The panel's name, its ticks, and its two axes. */
static void draw_axes(FILE *file, const struct panel *panel)
{
    const int middle = panel->top + PANEL / 2;
    fprintf(file, "<text text-anchor=\"middle\" transform=\"rotate(-90 16 %d)\" x=\"16\" y=\"%d\" fill=\"%s\">%s</text>\n<g text-anchor=\"end\">\n", middle,
            middle, panel->colour, panel->name);
    for (uint64_t value = 0; value <= panel->most; value += panel->step) {
        const double y = place_down(panel, value);
        fprintf(file, "<path d=\"M%d %.1fH%d\" stroke=\"#ddd\"/>\n", LEFT, y, RIGHT);
        fprintf(file, "<text x=\"%d\" y=\"%.1f\">%s</text>\n", LEFT - 10, y + 4.5, grouped((double)value, 0).at);
    }
    fprintf(file, "</g>\n<path d=\"M%d %dv%dH%d\" stroke=\"#222\" fill=\"none\"/>\n", LEFT, panel->top, PANEL, RIGHT);
}

/* A line through the points. */
static void draw_line(FILE *file, const struct panel *panel, const struct curve *c)
{
    fprintf(file, "<polyline fill=\"none\" stroke=\"%s\" stroke-width=\"1.5\" points=\"", panel->colour);
    for (size_t i = 0; i < c->count; i++)
        fprintf(file, "%s%.1f,%.1f", i == 0 ? "" : " ", place_across(c->at[i].f), place_down(panel, value_of(panel, &c->at[i])));
    fprintf(file, "\"/>\n");
}

/* A circle for each point, which says its numbers; that of the factor in use is larger. */
static void draw_points(FILE *file, const struct panel *panel, const struct curve *c, const struct point *used)
{
    fprintf(file, "<g fill=\"%s\">\n", panel->colour);
    for (size_t i = 0; i < c->count; i++) {
        const struct point *p = &c->at[i];
        fprintf(file, "<circle class=\"%s\" cx=\"%.1f\" cy=\"%.1f\" r=\"%s\">", panel->class, place_across(p->f), place_down(panel, value_of(panel, p)),
                p == used ? "6.5" : "3.5");
        fprintf(file, "<title>F %" PRIu32 ": %" PRIu64 " index bytes, %" PRIu32 " stored bytes</title></circle>\n", p->f, p->index, p->stored);
    }
    fprintf(file, "</g>\n");
}

/* A line through both panels at the factor in use. Its label stands above them, right of it where it is in the left half, else left of it. */
static void draw_in_use(FILE *file, const struct point *used)
{
    const double x = place_across(used->f);
    const int right = x <= (LEFT + RIGHT) / 2.0;
    fprintf(file, "<path d=\"M%.1f %dV%d\" stroke=\"#222\" stroke-dasharray=\"5 3\"/>\n", x, LABEL - LINE + 6, BOTTOM);
    fprintf(file, "<g text-anchor=\"%s\">\n", right ? "start" : "end");
    const double at = x + (right ? 8 : -8);
    fprintf(file, "<text x=\"%.1f\" y=\"%d\" font-weight=\"bold\">in use: F %s</text>\n", at, LABEL, grouped(used->f, 0).at);
    fprintf(file, "<text x=\"%.1f\" y=\"%d\">%s index bytes, %s stored bytes</text>\n", at, LABEL + LINE, grouped((double)used->index, 0).at,
            grouped(used->stored, 0).at);
    fprintf(file, "<text x=\"%.1f\" y=\"%d\">least total: %s disk bytes</text>\n</g>\n", at, LABEL + 2 * LINE, grouped(in_disk_bytes(used->total), 2).at);
}

static void draw_panel(FILE *file, const struct panel *panel, const struct curve *c, const struct point *used)
{
    draw_axes(file, panel);
    draw_line(file, panel, c);
    draw_points(file, panel, c, used);
}

static void draw_picture(FILE *file, const struct curve *c, const struct point *used, const char *old, const char *new)
{
    const struct panel upper = panel_of(c, "index", "index bytes", "#0072b2", UPPER);
    const struct panel lower = panel_of(c, "stored", "stored bytes, in bytes of disk", "#b84a00", LOWER);
    draw_title(file, c->deposit, old, new);
    draw_factor_axis(file);
    draw_in_use(file, used);
    draw_panel(file, &upper, c, used);
    draw_panel(file, &lower, c, used);
    fprintf(file, "</svg>\n");
}

static void write_picture(const char *name, const struct curve *c, const struct point *used, const char *old, const char *new)
{
    FILE *file = fopen(name, "wb");
    if (file == NULL)
        fail("cannot write %s: %s", name, strerror(errno));
    draw_picture(file, c, used, old, new);
    if (fflush(file) != 0 || ferror(file))
        fail("cannot write %s: %s", name, strerror(errno));
    fclose(file);
}

int main(int count, char **arguments)
{
    if (count != 4 && count != 6 && count != 7)
        fail("%s", usage);
    struct deposit *d = take_deposit(count - 2, arguments + 2);
    struct curve c = { .deposit = d };
    estimate_curve(&c);
    const struct point *used = point_in_use(&c);
    print_report(&c, used, arguments[2], arguments[3]);
    write_picture(arguments[1], &c, used, arguments[2], arguments[3]);
    free_deposit(d);
    if (fflush(stdout) != 0)
        fail("cannot write the table");
    return 0;
}
