// The points program in plain C, by the same rules: the sheet's file name on standard input, then a line for each point; the check's answer and, where it is 0, an
// answer for each line. It stands beside the proved program as the measure of its speed, and as a second reading of the rules.
#include <fcntl.h>
#include <string.h>
#include <unistd.h>

#include "plain.h"

// The longest line of a known form has 25 bytes, the longest answer 27.
enum { BLOCK = 65536, MOST_NAME = 255, MOST_ANSWER = 64 };

static char in[BLOCK + 1], out[BLOCK];
static uint8_t sheet[BLOCK];
static size_t filled;

static void flush(void) {
    for (size_t done = 0; done < filled;) {
        ssize_t n = write(1, out + done, filled - done);
        if (n <= 0) _exit(1);
        done += n;
    }
    filled = 0;
}

// The digits are worked from the last to the first, two at a time, and ten bytes go out whatever their number: what is too much is written over.
static char *put(char *p, int64_t v) {
    static const char pairs[] = "0001020304050607080910111213141516171819202122232425262728293031323334353637383940414243444546474849"
                                "5051525354555657585960616263646566676869707172737475767778798081828384858687888990919293949596979899";
    char digits[20] = {0}, *end = digits + 10, *d = end;
    uint32_t n = v < 0 ? -v : v;
    if (v < 0) *p++ = '-';
    for (; n > 99; n /= 100) d -= 2, memcpy(d, pairs + 2 * (n % 100), 2);
    if (n > 9) d -= 2, memcpy(d, pairs + 2 * n, 2);
    else *--d = '0' + n;
    memcpy(p, d, 10);
    return p + (end - d);
}

static void say(uint32_t number, int64_t a, int64_t b) {
    char *p = put(out + filled, number);
    *p++ = ' ', p = put(p, a);
    *p++ = ' ', p = put(p, b);
    *p++ = '\n';
    filled = p - out;
}

static void say_unknown(void) {
    memcpy(out + filled, "18\n", 3);
    filled += 3;
}

// A number at p: an optional minus and one to ten digits, within 32 bits. The place after it, or a null pointer. The line feed behind a line ends it.
static const char *number(const char *p, int32_t *value) {
    int minus = *p == '-';
    p += minus;
    const char *first = p;
    uint64_t v = 0;
    for (; (uint8_t)(*p - '0') < 10; p++) v = 10 * v + (uint8_t)(*p - '0');
    if (p == first || p - first > 10 || v > (uint64_t)INT32_MAX + minus) return NULL;
    *value = minus ? -(int64_t)v : (int64_t)v;
    return p;
}

// One line, with a line feed at its end.
static void answer(const places *p, const char *line, const char *end) {
    if (filled > BLOCK - MOST_ANSWER) flush();
    int32_t a = 0, b = 0;
    const char *at;
    if (end - line < 5 || line[1] != ' ' || !(at = number(line + 2, &a)) || *at != ' ' || number(at + 1, &b) != end) {
        say_unknown();
        return;
    }
    if (line[0] == 'G') {
        plane r = plain_forward(sheet, p, a, b);
        say(r.number, r.x, r.y);
    } else if (line[0] == 'P') {
        geographic r = plain_inverse(sheet, p, a, b);
        say(r.number, r.latitude, r.longitude);
    } else if (line[0] == 'S') {
        grid r = plain_convergence(sheet, p, a, b);
        say(r.number, r.convergence, r.scale);
    } else {
        say_unknown();
    }
}

// The named file's bytes, as far as the room goes; none where the name is no file's or a read fails.
static size_t load(const char *name, size_t length) {
    char path[MOST_NAME + 1] = {0};
    if (length > MOST_NAME || memchr(name, 0, length)) return 0;
    memcpy(path, name, length);
    int file = open(path, O_RDONLY);
    if (file < 0) return 0;
    size_t size = 0;
    ssize_t n = 1;
    while (size < BLOCK && (n = read(file, sheet + size, BLOCK - size)) > 0) size += n;
    close(file);
    return n < 0 ? 0 : size;
}

int main(void) {
    // The name: the first line, or all there is where no line feed comes. In a full block without one it is too long.
    size_t have = 0;
    char *feed = NULL;
    for (ssize_t n; !feed && have < BLOCK && (n = read(0, in + have, BLOCK - have)) > 0; have += n) feed = memchr(in + have, '\n', n);
    size_t size = load(in, feed ? (size_t)(feed - in) : have);
    verdict v = plain_check(sheet, size);
    say(v.number, v.kind, v.row);
    if (v.number) return flush(), 0;
    places p = plain_places(sheet);

    // Block by block: whole lines are answered where they lie, and what is left of a block comes before the next. Of a line longer than a block only a part is kept, since
    // it is of no known form.
    size_t from = feed ? (size_t)(feed - in) + 1 : have;
    for (;;) {
        for (char *end; (end = memchr(in + from, '\n', have - from)); from = end - in + 1) answer(&p, in + from, end);
        have -= from;
        memmove(in, in + from, have);
        from = 0;
        if (have == BLOCK) have = BLOCK / 2;
        ssize_t n = read(0, in + have, BLOCK - have);
        if (n <= 0) break;
        have += n;
    }
    in[have] = '\n';
    if (have) answer(&p, in, in + have);
    flush();
    return 0;
}
