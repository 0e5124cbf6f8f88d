/* What the lines of bench/lines cost at least: a loop that reads the same lines, computes with __int128 and prints the same replies. */
#include <stdio.h>
#include <stdlib.h>
#include <string.h>

typedef __int128 num;

static const char *at;

static num number(void) {
    while (*at == ' ' || *at == ',' || *at == '{') at++;
    int minus = *at == '-';
    if (minus) at++;
    num z = 0;
    while (*at >= '0' && *at <= '9') z = z * 10 + (*at++ - '0');
    return minus ? -z : z;
}

static char out[1 << 16];
static size_t used;

static void byte(char c) {
    if (used == sizeof out) {
        fwrite(out, 1, used, stdout);
        used = 0;
    }
    out[used++] = c;
}

static void put(num z) {
    char digits[40];
    int n = 0;
    if (z < 0) {
        byte('-');
        z = -z;
    }
    do digits[n++] = '0' + (int)(z % 10); while (z /= 10);
    while (n) byte(digits[--n]);
}

static void text(const char *s) {
    while (*s) byte(*s++);
}

static num down(num z, num k) {
    num q = z / k;
    return z % k < 0 ? q - 1 : q;
}

static void seconds(void) {
    num t = number();
    if (t < 0) return text("no solution at choose 1");
    put(t / 3600);
    byte(' ');
    put(t / 60 % 60);
    byte(' ');
    put(t % 60);
}

static void rounding(void) {
    num a = number(), b = number(), x = -down(-a, 2);
    if (2 * x > b) return text("no solution at choose 1");
    put(x);
}

static void sum(void) {
    volatile num a = 2, b = 3;
    put(a + b);
}

static void search(void) {
    num a = number();
    for (num x = 0; x < 10; x++)
        for (num y = 0; y < 10; y++)
            for (num z = 0; z < 10; z++)
                if (100 * x + 10 * y + z == a) return put(x);
    text("no solution at choose 1");
}

static num twice(num a) { return a + a; }

static num pick(num a, num b) { return a < b ? twice(a) : twice(b) - 1; }

static void calls(void) {
    num a = number(), b = number();
    put(pick(a, b) < 100 ? pick(b, a) : twice(pick(a, b)));
}

static int rising(const void *a, const void *b) {
    num x = *(const num *)a, y = *(const num *)b;
    return (x > y) - (x < y);
}

static void part(const num *items, size_t n) {
    byte('{');
    for (size_t i = 0; i < n; i++) {
        if (i) byte(',');
        put(items[i]);
    }
    byte('}');
}

static void split(void) {
    static num items[1 << 16];
    size_t n = 0, kept = 0;
    while (*at && *at != '}') items[n++] = number();
    qsort(items, n, sizeof(num), rising);
    for (size_t i = 0; i < n; i++)
        if (!kept || items[kept - 1] != items[i]) items[kept++] = items[i];
    part(items, (kept + 1) / 2);
    byte(' ');
    part(items + (kept + 1) / 2, kept / 2);
}

static void product(void) {
    num a = number(), b = number();
    if (a ? b % a : b) return text("no solution at choose 1");
    put(a ? b / a : 0);
}

int main(int count, char **words) {
    static const struct { const char *name; void (*answer)(void); } jobs[] = {
        {"seconds", seconds}, {"rounding", rounding}, {"sum", sum}, {"search", search}, {"calls", calls}, {"split", split},
        {"product", product}};
    char *line = NULL;
    size_t room = 0;
    for (size_t i = 0; count > 1 && i < sizeof jobs / sizeof *jobs; i++) {
        if (strcmp(words[1], jobs[i].name)) continue;
        while (getline(&line, &room, stdin) > 0) {
            at = line;
            jobs[i].answer();
            byte('\n');
        }
        fwrite(out, 1, used, stdout);
        return 0;
    }
    return 1;
}
