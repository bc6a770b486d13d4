// The floor of `log`: opens, reads and hashes the files that the program reads, prints the lines that it prints, and
// does nothing else. It trusts what it reads, but for each text's SHA-1, which has to be the file's name.
//
//     floor FOLDER ID
//
// The floor of an exchange of nothing new: opens, reads and closes each file whose path stands in a line of NAMES.
//
//     floor --files NAMES
//
// The floor of a list without stored rows: opens, reads and hashes each object whose path stands in a line of NAMES, and puts
// a file of 256 bytes into FOLDER for each line of ROWS: under another name, synced and renamed.
//
//     floor --list NAMES ROWS FOLDER

#include <fcntl.h>
#include <stdint.h>
#include <stdio.h>
#include <stdlib.h>
#include <string.h>
#include <unistd.h>

#define DIGITS 40

struct commit {
    char name[DIGITS];
    char tree[DIGITS];
};

// The file that was read last, with a zero byte behind it.
static unsigned char text[4194304 + 1];
static size_t size;

static void fail(const char *what) {
    fprintf(stderr, "floor: %s\n", what);
    exit(1);
}

static uint32_t rotate(uint32_t word, int by) { return word << by | word >> (32 - by); }

// Five rounds, after which each of the five words is where it was before.
#define ROUNDS(mix, key) \
    for (int end = i + 20; i < end; i += 5) { \
        e += rotate(a, 5) + mix(b, c, d) + key + words[i], b = rotate(b, 30); \
        d += rotate(e, 5) + mix(a, b, c) + key + words[i + 1], a = rotate(a, 30); \
        c += rotate(d, 5) + mix(e, a, b) + key + words[i + 2], e = rotate(e, 30); \
        b += rotate(c, 5) + mix(d, e, a) + key + words[i + 3], d = rotate(d, 30); \
        a += rotate(b, 5) + mix(c, d, e) + key + words[i + 4], c = rotate(c, 30); \
    }
#define CHOOSE(x, y, z) (z ^ (x & (y ^ z)))
#define PARITY(x, y, z) (x ^ y ^ z)
#define MAJORITY(x, y, z) ((x & y) | (z & (x | y)))

static void hash_block(uint32_t state[5], const unsigned char *block) {
    uint32_t words[80];
    for (int i = 0; i < 16; i++, block += 4)
        words[i] = (uint32_t)block[0] << 24 | (uint32_t)block[1] << 16 | (uint32_t)block[2] << 8 | block[3];
    for (int i = 16; i < 80; i++)
        words[i] = rotate(words[i - 3] ^ words[i - 8] ^ words[i - 14] ^ words[i - 16], 1);
    uint32_t a = state[0], b = state[1], c = state[2], d = state[3], e = state[4];
    int i = 0;
    ROUNDS(CHOOSE, 0x5a827999)
    ROUNDS(PARITY, 0x6ed9eba1)
    ROUNDS(MAJORITY, 0x8f1bbcdc)
    ROUNDS(PARITY, 0xca62c1d6)
    state[0] += a, state[1] += b, state[2] += c, state[3] += d, state[4] += e;
}

// The SHA-1 (FIPS 180-4) of the text, in digits.
static void hash(char digits[DIGITS]) {
    uint32_t state[5] = {0x67452301, 0xefcdab89, 0x98badcfe, 0x10325476, 0xc3d2e1f0};
    size_t at = 0;
    for (; size - at >= 64; at += 64)
        hash_block(state, text + at);
    unsigned char end[128] = {0};
    size_t rest = size - at, padded = rest < 56 ? 64 : 128;
    memcpy(end, text + at, rest);
    end[rest] = 0x80;
    for (int i = 0; i < 8; i++)
        end[padded - 1 - i] = (unsigned char)((uint64_t)size * 8 >> 8 * i);
    for (size_t i = 0; i < padded; i += 64)
        hash_block(state, end + i);
    for (int i = 0; i < DIGITS; i++)
        digits[i] = "0123456789abcdef"[state[i / 8] >> (28 - 4 * (i % 8)) & 15];
}

static void read_file(const char *path) {
    int file = open(path, O_RDONLY | O_CLOEXEC);
    if (file < 0)
        fail("a file is missing");
    ssize_t got;
    for (size = 0; (got = read(file, text + size, sizeof text - 1 - size)) > 0;)
        size += (size_t)got;
    if (got < 0)
        fail("a file cannot be read");
    text[size] = 0;
    close(file);
}

// A path below the folder, and where the name of an object goes in it.
static char path[8192];
static char *path_end;

static void read_object(const char name[DIGITS]) {
    memcpy(path_end, name, 2);
    path_end[2] = '/';
    memcpy(path_end + 3, name + 2, DIGITS - 2);
    path_end[DIGITS + 1] = 0;
    read_file(path);
    char digits[DIGITS];
    hash(digits);
    if (memcmp(digits, name, DIGITS) != 0)
        fail("an object has another SHA-1");
}

// Where the content of the object begins.
static char *content(void) { return (char *)memchr(text, 0, size + 1) + 1; }

// The first entry of a tree whose name begins so.
static char *entry(const char *front) {
    char *at = strchr(content(), ' ') + 1;
    while (strncmp(at, front, strlen(front)) != 0)
        at = strchr(at + strlen(at) + 21, ' ') + 1;
    return at;
}

// Does this with each line of a file.
static void each_line(const char *names, void (*act)(const char *line)) {
    read_file(names);
    char *all = strdup((const char *)text);
    if (!all)
        fail("no memory");
    for (char *name = strtok(all, "\n"); name; name = strtok(NULL, "\n"))
        act(name);
    free(all);
}

static void hash_file(const char *name) {
    char digits[DIGITS];
    read_file(name);
    hash(digits);
    if (memcmp(digits + 2, name + strlen(name) - (DIGITS - 2), DIGITS - 2) != 0)
        fail("an object has another SHA-1");
}

// The folder of rows.
static const char *rows;

static void put_row(const char *name) {
    static const char row[256];
    char other[8192], own[8192];
    snprintf(other, sizeof other, "%s/new", rows);
    snprintf(own, sizeof own, "%s/%s", rows, name);
    int file = open(other, O_WRONLY | O_CREAT | O_TRUNC | O_CLOEXEC, 0666);
    if (file < 0 || write(file, row, sizeof row) != sizeof row || fsync(file) || close(file) || rename(other, own))
        fail("a row cannot be written");
}

int main(int argc, char **argv) {
    if (argc == 3 && strcmp(argv[1], "--files") == 0) {
        each_line(argv[2], read_file);
        return 0;
    }
    if (argc == 5 && strcmp(argv[1], "--list") == 0) {
        rows = argv[4];
        each_line(argv[2], hash_file);
        each_line(argv[3], put_row);
        return 0;
    }
    if (argc != 3 || strlen(argv[1]) > 4000 || strlen(argv[2]) > 4000)
        fail("FOLDER ID");
    snprintf(path, sizeof path, "%s/refs/bugs/%s", argv[1], argv[2]);
    read_file(path);
    path_end = path + snprintf(path, sizeof path, "%s/objects/", argv[1]);

    size_t count = 0, room = 0;
    struct commit *commits = NULL;
    char name[DIGITS];
    memcpy(name, text, DIGITS);
    for (int is_root = 0; !is_root; count++) {
        if (count == room) {
            room = room ? 2 * room : 64;
            commits = realloc(commits, room * sizeof *commits);
            if (!commits)
                fail("no memory");
        }
        read_object(name);
        char *tree = content() + strlen("tree ");
        char *parent = tree + DIGITS + strlen("\nparent ");
        memcpy(commits[count].name, name, DIGITS);
        memcpy(commits[count].tree, tree, DIGITS);
        is_root = memcmp(tree + DIGITS, "\nparent ", strlen("\nparent ")) != 0;
        memcpy(name, parent, DIGITS);
    }

    char *lines = malloc(count * (DIGITS + 22)), *end = lines;
    if (!lines)
        fail("no memory");
    while (count-- > 0) {
        read_object(commits[count].tree);
        end = stpcpy(end, entry("edit-clock-") + strlen("edit-clock-"));
        unsigned char *pack = (unsigned char *)entry("ops") + strlen("ops") + 1;
        for (int i = 0; i < DIGITS; i++)
            name[i] = "0123456789abcdef"[pack[i / 2] >> (4 - 4 * (i % 2)) & 15];
        read_object(name);
        *end++ = ' ';
        end = (char *)memcpy(end, commits[count].name, DIGITS) + DIGITS;
        *end++ = '\n';
    }
    for (char *at = lines; at < end;) {
        ssize_t put = write(1, at, (size_t)(end - at));
        if (put <= 0)
            fail("cannot write");
        at += put;
    }
    return 0;
}
