// Three programs to compare nfq with.
//
//   baselines floor RULES SCRIPT IN OUT LEDGER JOURNAL SIZE SIZE SIZE
//     reads the three inputs and writes three files of these sizes, in pieces of up to 256 KiB.
//   baselines tuned RULES SCRIPT IN OUT LEDGER JOURNAL
//     writes the bytes that `nfq play` writes for the one rule and the script of play.sh that accepts every
//     frame, and a little-endian capture of microseconds and of IPv4 as raw IP, in frames of up to 131,072 bytes,
//     without a check: the capture is read whole, and each output is written in pieces of up to 256 KiB.
//   baselines whole RULES SCRIPT IN OUT LEDGER JOURNAL
//     the same, but keeps each output whole until the last is made, as nfq does, which touches none where memory
//     runs out.
#include <fcntl.h>
#include <stdint.h>
#include <stdio.h>
#include <stdlib.h>
#include <string.h>
#include <sys/stat.h>
#include <unistd.h>

enum { PIECE = 256 * 1024 };

static int opened(const char *name, int flags) {
    int file = open(name, flags, 0644);
    if (file < 0) { perror(name); exit(3); }
    return file;
}

static void floor_of(char **names, char **sizes) {
    static char piece[PIECE];
    for (int i = 0; i < 3; i++) {
        int file = opened(names[i], O_RDONLY);
        while (read(file, piece, PIECE) > 0) {}
        close(file);
    }
    for (int i = 0; i < 3; i++) {
        int file = opened(names[3 + i], O_WRONLY | O_CREAT | O_TRUNC);
        for (long long left = atoll(sizes[i]); left > 0;) {
            ssize_t n = write(file, piece, left < PIECE ? left : PIECE);
            if (n <= 0) { perror(names[3 + i]); exit(3); }
            left -= n;
        }
        close(file);
    }
}

typedef struct { const char *name; int file; size_t used, room; char *bytes; } Out;

// An output that holds `room` bytes before it is written. Its file is made where it is first written.
static Out output(const char *name, size_t room) {
    Out out = { name, -1, 0, room, malloc(room) };
    if (!out.bytes) { perror(name); exit(8); }
    return out;
}

static void flushed(Out *out) {
    if (out->file < 0) out->file = opened(out->name, O_WRONLY | O_CREAT | O_TRUNC);
    for (size_t at = 0; at < out->used;) {
        size_t left = out->used - at;
        ssize_t n = write(out->file, out->bytes + at, left < PIECE ? left : PIECE);
        if (n <= 0) { perror(out->name); exit(3); }
        at += n;
    }
    out->used = 0;
}

static void put(Out *out, const void *bytes, size_t length) {
    if (out->used + length > out->room) flushed(out);
    memcpy(out->bytes + out->used, bytes, length);
    out->used += length;
}

static void text(Out *out, const char *word) { put(out, word, strlen(word)); }

static void number(Out *out, uint32_t n) {
    char digits[10];
    int at = 10;
    do { digits[--at] = '0' + n % 10; n /= 10; } while (n);
    put(out, digits + at, 10 - at);
}

static void hexadecimal(Out *out, const uint8_t *bytes, uint32_t length) {
    static const char digit[] = "0123456789abcdef";
    if (out->used + 2 * (size_t)length > out->room) flushed(out);
    for (uint32_t i = 0; i < length; i++) {
        out->bytes[out->used++] = digit[bytes[i] >> 4];
        out->bytes[out->used++] = digit[bytes[i] & 15];
    }
}

static uint32_t u32_at(const uint8_t *bytes) { uint32_t n; memcpy(&n, bytes, 4); return n; }

// Each frame has a line of at most 64 bytes in the ledger, and four of at most 96 beside its bytes in the journal.
static void by_hand(char **names, int is_whole) {
    int file = opened(names[2], O_RDONLY);
    struct stat told;
    fstat(file, &told);
    uint8_t *capture = malloc(told.st_size);
    for (off_t at = 0; at < told.st_size;) {
        ssize_t n = read(file, capture + at, told.st_size - at);
        if (n <= 0) { perror(names[2]); exit(2); }
        at += n;
    }
    size_t size = told.st_size, frames = 0;
    for (size_t at = 24; at < size; at += 16 + u32_at(capture + at + 8)) frames++;
    Out out = output(names[3], is_whole ? size : PIECE);
    Out ledger = output(names[4], is_whole ? 64 * (frames + 1) : PIECE);
    Out journal = output(names[5], is_whole ? 2 * size + 4 * 96 * (frames + 1) : PIECE);
    text(&ledger, "record fate queue at mark priority bytes\n");
    text(&journal, "nfq-journal 2\nM 0 7 1 config 0 cmd 1 = 0 0\nM 0 7 2 config 0 params 2 0 = 0 0\n");
    put(&out, capture, 24);
    uint32_t n = 0;
    for (off_t at = 24; at < told.st_size;) {
        const uint8_t *record = capture + at;
        uint32_t length = u32_at(record + 8);
        n++;
        put(&out, record, 16 + length);
        number(&ledger, n); text(&ledger, " accept 0 "); number(&ledger, 2 * n + 2);
        text(&ledger, " 0 0 "); number(&ledger, length); text(&ledger, "\n");
        text(&journal, "A 0 "); number(&journal, n); text(&journal, " 1 1 n y 0 0 ");
        number(&journal, u32_at(record)); text(&journal, " "); number(&journal, u32_at(record + 4));
        text(&journal, " 2048 - "); hexadecimal(&journal, record + 16, length);
        text(&journal, " taken:"); number(&journal, n);
        text(&journal, "\nM 0 7 "); number(&journal, n + 2); text(&journal, " verdict 0 1 ");
        number(&journal, n); text(&journal, " = 0 1\n");
        at += 16 + length;
    }
    text(&journal, "P 7\nS 1 config 0 cmd 1 = 0\nS 2 config 0 params 2 0 = 0\n");
    for (uint32_t i = 1; i <= n; i++) {
        text(&journal, "R 0 "); number(&journal, i); text(&journal, " 1\nS ");
        number(&journal, i + 2); text(&journal, " verdict 0 1 "); number(&journal, i);
        text(&journal, " = -\n");
    }
    text(&journal, "end\n");
    flushed(&out); flushed(&ledger); flushed(&journal);
}

int main(int count, char **words) {
    if (count == 11 && strcmp(words[1], "floor") == 0) floor_of(words + 2, words + 8);
    else if (count == 8 && strcmp(words[1], "tuned") == 0) by_hand(words + 2, 0);
    else if (count == 8 && strcmp(words[1], "whole") == 0) by_hand(words + 2, 1);
    else { fprintf(stderr, "usage: see the head of baselines.c\n"); return 1; }
    return 0;
}
