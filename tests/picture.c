/* picture.c - whether a picture of examples/controller/curve is well-formed XML and has a point for each factor of the table beside it.
 *
 *   picture SVG TABLE
 *
 * TABLE is what curve wrote to standard output. Of XML the test takes what a picture needs and refuses the rest: ASCII characters; the declaration and
 * comments before the root; elements that nest and end; attributes that are quoted and unique in their tag; text; the five entities and numeric
 * references; after the root, white space alone. The root is svg, with its namespace.
 *
 * A point is a circle of the class index or stored. Each class has one point for each row of the table, in its order: further right than the one before
 * it, unless the factors are so near that they share a place; higher where the number is greater and as high where it is the same; with the row's numbers
 * in its title.
 *
 * In order: errors and files; the table; characters; tags; points; elements. Exit 0 and one line, else 1 and one line with the place in the picture.
 */
#include <inttypes.h>
#include <stdarg.h>
#include <stdio.h>
#include <stdlib.h>
#include <string.h>

/* ---- Errors and files ---- */

/* The picture, ended by a zero byte, and the place in it. */
static const char *picture, *at;

_Noreturn static void refuse(const char *format, ...)
{
    va_list values;
    size_t line = 1;
    for (const char *c = picture; c < at; c++)
        line += *c == '\n';
    printf("picture: line %zu: ", line);
    va_start(values, format);
    vprintf(format, values);
    va_end(values);
    printf("\n");
    exit(1);
}

#define FILE_MOST 1000000

/* The whole file, ended by a zero byte, into an area of that length. */
static void read_file(const char *name, char *area)
{
    FILE *file = fopen(name, "rb");
    const size_t length = file == NULL ? FILE_MOST : fread(area, 1, FILE_MOST, file);
    if (length == FILE_MOST || ferror(file) || memchr(area, '\0', length) != NULL) {
        printf("picture: cannot read %s, or it is too long, or no text\n", name);
        exit(1);
    }
    area[length] = '\0';
    fclose(file);
}

/* ---- The table ---- */

/* What a factor comes to; the fewest and the most factors of a table. */
struct row {
    uint32_t f, stored;
    uint64_t index;
};

enum { ROWS_LEAST = 40, ROWS_MOST = 64 };

static struct row rows[ROWS_MOST];
static size_t row_count;

/* The rows are the lines with seven numbers: F, the same in disk bytes, entries, index bytes, stored bytes, and two costs. */
static void read_rows(const char *table)
{
    struct row r;
    for (const char *line = table; line != NULL; line = strchr(line, '\n')) {
        line += *line == '\n';
        if (sscanf(line, "%" SCNu32 " %*f %*u %" SCNu64 " %" SCNu32 " %*f %*f", &r.f, &r.index, &r.stored) != 3)
            continue;
        if (row_count == ROWS_MOST || (row_count > 0 && r.f <= rows[row_count - 1].f))
            refuse("the table has over %d factors, or they do not rise", ROWS_MOST);
        rows[row_count++] = r;
    }
    if (row_count < ROWS_LEAST || rows[0].f != 1 || rows[row_count - 1].f != 65535)
        refuse("the table has %zu factors, and not %d or more from 1 to 65535", row_count, ROWS_LEAST);
}

/* ---- Characters ---- */

struct span {
    const char *at;
    size_t length;
};

static int is_equal(struct span s, const char *text)
{
    return s.length == strlen(text) && memcmp(s.at, text, s.length) == 0;
}

static int takes(const char *text)
{
    const size_t length = strlen(text);
    if (strncmp(at, text, length) != 0)
        return 0;
    at += length;
    return 1;
}

static void want(const char *text)
{
    if (!takes(text))
        refuse("'%s' is wanted", text);
}

/* Takes white space; whether there was any. */
static int takes_space(void)
{
    const size_t length = strspn(at, " \t\r\n");
    at += length;
    return length > 0;
}

/* The value of a digit, or the base where the character is none. */
static uint32_t digit(char c, uint32_t base)
{
    const char digits[] = "00112233445566778899aAbBcCdDeEfF";
    const char *found = c == '\0' ? NULL : strchr(digits, c);
    const uint32_t value = found == NULL ? base : (uint32_t)(found - digits) / 2;
    return value < base ? value : base;
}

/* A reference, of which "&#" or "&#x" is taken, to a character of XML. */
static void take_code(uint32_t base)
{
    uint32_t code = 0;
    const char *first = at;
    for (; digit(*at, base) < base; at++)
        code = code > 0x10ffff ? code : code * base + digit(*at, base);
    if (at == first || code > 0x10ffff || (code < 0x20 && code != 9 && code != 10 && code != 13) || (code >= 0xd800 && code < 0xe000) || code == 0xfffe ||
        code == 0xffff)
        refuse("a numeric reference to no character");
    want(";");
}

static void take_reference(void)
{
    if (takes("&amp;") || takes("&lt;") || takes("&gt;") || takes("&quot;") || takes("&apos;"))
        return;
    if (takes("&#x"))
        take_code(16);
    else if (takes("&#"))
        take_code(10);
    else
        refuse("a bare & or an unknown entity");
}

/* Takes characters and references up to one of those that end them. */
static void take_characters(const char *ends)
{
    while (*at != '\0' && strchr(ends, *at) == NULL) {
        if (*at == '&')
            take_reference();
        else if ((*at < ' ' || *at > '~') && strchr("\t\r\n", *at) == NULL)
            refuse("a character that is not ASCII, or a control character");
        else
            at++;
    }
}

/* Text up to the next tag or comment; "]]>" may not stand in it. */
static struct span take_text(void)
{
    struct span text = { at, 0 };
    take_characters("<");
    text.length = (size_t)(at - text.at);
    for (size_t i = 0; i + 3 <= text.length; i++)
        if (memcmp(text.at + i, "]]>", 3) == 0)
            refuse("']]>' in text");
    return text;
}

/* A comment, of which "<!--" is taken. It has no "--". */
static void take_comment(void)
{
    while (strncmp(at, "--", 2) != 0) {
        if (*at == '\0' || ((*at < ' ' || *at > '~') && strchr("\t\r\n", *at) == NULL))
            refuse("a comment that does not end, or has a character that is not ASCII, or a control character");
        at++;
    }
    want("-->");
}

/* ---- Tags ---- */

enum { ATTRIBUTES_MOST = 16 };

struct tag {
    struct span name, names[ATTRIBUTES_MOST], values[ATTRIBUTES_MOST];
    size_t count;
    int is_empty;
};

/* A name without a prefix. */
static struct span take_name(void)
{
    static const char first[] = "abcdefghijklmnopqrstuvwxyzABCDEFGHIJKLMNOPQRSTUVWXYZ_", other[] = "0123456789.-";
    struct span name = { at, 0 };
    while (*at != '\0' && (strchr(first, *at) != NULL || (at > name.at && strchr(other, *at) != NULL)))
        at++;
    name.length = (size_t)(at - name.at);
    if (name.length == 0)
        refuse("a name is wanted");
    return name;
}

/* The value of an attribute of a tag, of length 0 where it has none. */
static struct span value_of(const struct tag *tag, const char *name)
{
    for (size_t i = 0; i < tag->count; i++)
        if (is_equal(tag->names[i], name))
            return tag->values[i];
    return (struct span){ "", 0 };
}

static void take_attribute(struct tag *tag)
{
    const struct span name = take_name();
    for (size_t i = 0; i < tag->count; i++)
        if (tag->names[i].length == name.length && memcmp(tag->names[i].at, name.at, name.length) == 0)
            refuse("the attribute %.*s stands twice", (int)name.length, name.at);
    takes_space();
    want("=");
    takes_space();
    if (tag->count == ATTRIBUTES_MOST || (*at != '"' && *at != '\''))
        refuse("the value of %.*s is not quoted, or its tag has over %d attributes", (int)name.length, name.at, ATTRIBUTES_MOST);
    const char quote[] = { *at++, '\0' }, ends[] = { quote[0], '<', '\0' };
    struct span value = { at, 0 };
    take_characters(ends);
    value.length = (size_t)(at - value.at);
    want(quote);
    tag->names[tag->count] = name;
    tag->values[tag->count++] = value;
}

/* A tag, of which "<" is taken. */
static struct tag take_tag(void)
{
    struct tag tag = { .name = take_name() };
    while (takes_space() && *at != '>' && *at != '/')
        take_attribute(&tag);
    tag.is_empty = takes("/");
    want(">");
    return tag;
}

/* ---- Points ---- */

/* The points of a class so far, and the last one's factor, place and number. */
struct series {
    const char *class;
    size_t count;
    uint32_t f;
    double x, y;
    uint64_t number;
};

static struct series series[] = { { .class = "index" }, { .class = "stored" } };

/* The series whose point a tag is; NULL where it is none. */
static struct series *series_of(const struct tag *tag)
{
    for (size_t i = 0; i < 2; i++)
        if (is_equal(tag->name, "circle") && is_equal(value_of(tag, "class"), series[i].class))
            return &series[i];
    return NULL;
}

static double number_of(const struct tag *tag, const char *name)
{
    const struct span value = value_of(tag, name);
    char *end;
    const double number = strtod(value.at, &end);
    if (value.length == 0 || end != value.at + value.length)
        refuse("a point whose %s is no number", name);
    return number;
}

/* A point with its title is that of the next row. */
static void add_point(struct series *s, const struct tag *point, struct span title)
{
    char said[100];
    if (s->count == row_count)
        refuse("class %s has a point beyond the %zu factors of the table", s->class, row_count);
    const struct row *r = &rows[s->count];
    snprintf(said, sizeof said, "F %" PRIu32 ": %" PRIu64 " index bytes, %" PRIu32 " stored bytes", r->f, r->index, r->stored);
    if (!is_equal(title, said))
        refuse("a point of class %s says '%.*s', and the table '%s'", s->class, (int)title.length, title.at, said);
    const double x = number_of(point, "cx"), y = number_of(point, "cy");
    const uint64_t number = s == series ? r->index : r->stored;
    if (s->count > 0 && (x < s->x || (x == s->x && r->f > s->f + s->f / 100)))
        refuse("the point of class %s at F %" PRIu32 " is not right of the one before it", s->class, r->f);
    if (s->count > 0 && ((number > s->number && y > s->y) || (number < s->number && y < s->y) || (number == s->number && y != s->y)))
        refuse("the point of class %s at F %" PRIu32 " is not as high as its number, beside the one before it", s->class, r->f);
    *s = (struct series){ s->class, s->count + 1, r->f, x, y, number };
}

/* ---- Elements ---- */

enum { DEPTH_MOST = 20 };

static void take_elements(const struct tag *within, int depth);

/* A point has its title and nothing else. */
static void take_point(struct series *s, const struct tag *point)
{
    if (point->is_empty)
        refuse("a point of class %s has no title", s->class);
    want("<title>");
    add_point(s, point, take_text());
    want("</title></circle>");
}

/* An element, of which "<" is taken, with all that is in it. */
static struct tag take_element(int depth)
{
    const struct tag tag = take_tag();
    struct series *s = series_of(&tag);
    if (depth > DEPTH_MOST)
        refuse("elements are nested too deep");
    if (s != NULL)
        take_point(s, &tag);
    else if (!tag.is_empty)
        take_elements(&tag, depth);
    return tag;
}

/* What stands in an element, and its end. */
static void take_elements(const struct tag *within, int depth)
{
    for (;;) {
        take_text();
        if (takes("</"))
            break;
        if (takes("<!--"))
            take_comment();
        else if (takes("<"))
            take_element(depth + 1);
        else
            refuse("the element %.*s does not end", (int)within->name.length, within->name.at);
    }
    const struct span name = take_name();
    if (name.length != within->name.length || memcmp(name.at, within->name.at, name.length) != 0)
        refuse("the element %.*s ends as %.*s", (int)within->name.length, within->name.at, (int)name.length, name.at);
    takes_space();
    want(">");
}

static void take_document(void)
{
    takes("<?xml version=\"1.0\" encoding=\"UTF-8\"?>");
    for (takes_space(); takes("<!--"); takes_space())
        take_comment();
    want("<");
    const struct tag root = take_element(0);
    if (!is_equal(root.name, "svg") || !is_equal(value_of(&root, "xmlns"), "http://www.w3.org/2000/svg"))
        refuse("the root is not svg with its namespace");
    takes_space();
    if (*at != '\0')
        refuse("something stands after the root");
}

int main(int count, char **arguments)
{
    static char areas[2][FILE_MOST];
    if (count != 3)
        return printf("usage: picture SVG TABLE\n"), 1;
    read_file(arguments[1], areas[0]);
    read_file(arguments[2], areas[1]);
    picture = at = areas[0];
    read_rows(areas[1]);
    take_document();
    for (size_t i = 0; i < 2; i++)
        if (series[i].count != row_count)
            refuse("class %s has %zu points, and the table %zu factors", series[i].class, series[i].count, row_count);
    printf("picture: well-formed, with %zu points of %zu factors\n", series[0].count + series[1].count, row_count);
    return 0;
}
