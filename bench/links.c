/* Walks the links of a D64 image's directory and of its closed files, as a check of the disk does: marks each block, stops at a block that was
   seen. Prints the seconds that one walk takes. usage: links IMAGE ROUNDS */
#include <stdio.h>
#include <stdlib.h>
#include <string.h>
#include <time.h>

static unsigned char image[174848];
static int first[37];

static int sectors(int track) { return track < 18 ? 21 : track < 25 ? 19 : track < 31 ? 18 : 17; }

static int block(int track, int sector) {
    return track < 1 || track > 35 || sector >= sectors(track) ? -1 : first[track] + sector;
}

/* Marks the chain from a block; returns whether it ends and meets no mark. */
static int walk(unsigned char *seen, int at) {
    while (at >= 0 && !seen[at]) {
        seen[at] = 1;
        const unsigned char *bytes = image + 256 * at;
        if (bytes[0] == 0) return 1;
        at = block(bytes[0], bytes[1]);
    }
    return 0;
}

static int check(void) {
    unsigned char seen[683];
    memset(seen, 0, sizeof seen);
    seen[357] = 1;
    if (!walk(seen, 358)) return 0;
    for (int at = 358; at >= 0;) {
        const unsigned char *bytes = image + 256 * at;
        for (int slot = 0; slot < 8; slot++) {
            const unsigned char *entry = bytes + 32 * slot;
            if ((entry[2] & 0x80) && (entry[2] & 15) && !walk(seen, block(entry[3], entry[4]))) return 0;
        }
        at = bytes[0] ? block(bytes[0], bytes[1]) : -1;
    }
    return 1;
}

int main(int count, char **words) {
    FILE *file = count == 3 ? fopen(words[1], "rb") : NULL;
    if (!file || fread(image, 1, sizeof image, file) != sizeof image) return 2;
    for (int track = 1; track < 36; track++) first[track + 1] = first[track] + sectors(track);
    long rounds = atol(words[2]);
    volatile int sound = 1;
    clock_t start = clock();
    for (long round = 0; round < rounds; round++) {
        image[174847] = (unsigned char)round;
        sound &= check();
    }
    printf("%.9f\n", (double)(clock() - start) / CLOCKS_PER_SEC / rounds);
    return sound ? 0 : 1;
}
