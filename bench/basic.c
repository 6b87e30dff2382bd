/* Makes a BASIC V2 program of a text, or a text of a program, as a plain loop would: units of one character or `{$hh}`, the 76 keywords in
   their order, kept runs after a quote, `rem` and `data`, links and numbers. Prints the seconds that one round takes.
   usage: basic crunch|list FILE ROUNDS */
#include <stdio.h>
#include <stdlib.h>
#include <string.h>
#include <time.h>

static const char *words[76] = {
    "END", "FOR", "NEXT", "DATA", "INPUT#", "INPUT", "DIM", "READ", "LET", "GOTO", "RUN", "IF", "RESTORE", "GOSUB", "RETURN", "REM", "STOP", "ON", "WAIT",
    "LOAD", "SAVE", "VERIFY", "DEF", "POKE", "PRINT#", "PRINT", "CONT", "LIST", "CLR", "CMD", "SYS", "OPEN", "CLOSE", "GET", "NEW", "TAB(", "TO", "FN",
    "SPC(", "THEN", "NOT", "STEP", "+", "-", "*", "/", "^", "AND", "OR", ">", "=", "<", "SGN", "INT", "ABS", "USR", "FRE", "POS", "SQR", "RND", "LOG", "EXP",
    "COS", "SIN", "TAN", "ATN", "PEEK", "LEN", "STR$", "VAL", "ASC", "CHR$", "LEFT$", "RIGHT$", "MID$", "GO"};
static size_t lengths[76];
static unsigned char in[1 << 21], out[1 << 23], line[1 << 16];

static int digit(int c) { return c <= '9' ? c - '0' : (c | 32) - 'a' + 10; }

/* How many bytes are kept after an opener: to the end, through the next quote, or through the first colon outside quotes. */
static size_t kept(int opener, const unsigned char *at, size_t left) {
    int quoted = 0;
    for (size_t n = 0; n < left; n++) {
        if (opener == '"' && at[n] == '"') return n + 1;
        if (opener == 0x83 && at[n] == ':' && !quoted) return n + 1;
        quoted ^= at[n] == '"';
    }
    return left;
}

/* Skips blank lines and remarks that begin with `;`; returns the bytes of the next line in text form. */
static size_t crunch(size_t length) {
    size_t made = 2, at = 0;
    out[0] = 1, out[1] = 8;
    while (at < length) {
        const unsigned char *end = memchr(in + at, '\n', length - at);
        size_t stop = end ? (size_t)(end - in) : length, read = 0, put = made + 4, done = 0;
        unsigned number = 0;
        while (at < stop && in[at] == ' ') at++;
        if (at == stop || in[at] == ';') {
            at = stop + 1;
            continue;
        }
        while (at < stop && in[at] >= '0' && in[at] <= '9') number = number * 10 + in[at++] - '0';
        if (at < stop && in[at] == ' ') at++;
        while (at < stop) {
            if (in[at] == '{') {
                line[read++] = 16 * digit(in[at + 2]) + digit(in[at + 3]);
                at += 5;
            } else {
                int c = in[at++];
                line[read++] = c >= 'a' && c <= 'z' ? c - 32 : c;
            }
        }
        at = stop + 1;
        while (done < read) {
            int code = line[done], word = 0;
            while (word < 76 && (read - done < lengths[word] || memcmp(line + done, words[word], lengths[word]))) word++;
            done += word < 76 ? lengths[word] : 1;
            if (word < 76) code = 0x80 + word;
            else if (code == '?') code = 0x99;
            out[put++] = code;
            if (code == '"' || code == 0x8F || code == 0x83) {
                size_t run = kept(code, line + done, read - done);
                memcpy(out + put, line + done, run);
                put += run, done += run;
            }
        }
        out[put++] = 0;
        out[made + 2] = number & 255, out[made + 3] = number >> 8;
        unsigned next = 0x801 + put - 2;
        out[made] = next & 255, out[made + 1] = next >> 8;
        made = put;
    }
    out[made] = out[made + 1] = 0;
    return made + 2;
}

static size_t spell(size_t put, int c) {
    if (c >= 'A' && c <= 'Z') out[put++] = c + 32;
    else if (c >= ' ' && c <= '@') out[put++] = c;
    else put += sprintf((char *)out + put, "{$%02x}", c);
    return put;
}

static size_t list(size_t length) {
    size_t put = 0, at = 2;
    while (at + 1 < length && (in[at] | in[at + 1])) {
        put += sprintf((char *)out + put, "%u ", in[at + 2] + 256u * in[at + 3]);
        size_t end = at + 4;
        while (in[end]) end++;
        for (at += 4; at < end;) {
            int code = in[at++];
            if (code >= 0x80 && code < 0x80 + 76) {
                for (const char *c = words[code - 0x80]; *c; c++) out[put++] = *c >= 'A' && *c <= 'Z' ? *c + 32 : *c;
            } else put = spell(put, code);
            if (code == '"' || code == 0x8F || code == 0x83)
                for (size_t run = kept(code, in + at, end - at); run; run--) put = spell(put, in[at++]);
        }
        at++;
        out[put++] = '\n';
    }
    return put;
}

int main(int count, char **given) {
    FILE *file = count == 4 ? fopen(given[2], "rb") : NULL;
    if (!file) return 2;
    size_t length = fread(in, 1, sizeof in, file), made = 0;
    int rounds = atoi(given[3]), crunching = !strcmp(given[1], "crunch");
    for (int word = 0; word < 76; word++) lengths[word] = strlen(words[word]);
    clock_t begin = clock();
    for (int round = 0; round < rounds; round++) made = crunching ? crunch(length) : list(length);
    printf("%.9f\n", (double)(clock() - begin) / CLOCKS_PER_SEC / rounds);
    return made > sizeof out;
}
