/* Decodes 100 MB of UTF-8, adds up the characters, and prints how fast: decode TEXT. */
#include <stdio.h>
#include <stdlib.h>
#include <time.h>

int main(int argc, char **argv) {
    FILE *in = fopen(argv[1], "rb");
    size_t size = 100000000, at = 0;
    unsigned char *b = calloc(size + 4, 1);
    unsigned long long sum = 0;
    if (!in || !b || fread(b, 1, size, in) != size) return 1;
    clock_t start = clock();
    while (at < size) {
        unsigned c = b[at++];
        if (c >= 0xF0) c = (c & 7) << 18 | (b[at] & 63) << 12 | (b[at + 1] & 63) << 6 | (b[at + 2] & 63), at += 3;
        else if (c >= 0xE0) c = (c & 15) << 12 | (b[at] & 63) << 6 | (b[at + 1] & 63), at += 2;
        else if (c >= 0xC0) c = (c & 31) << 6 | (b[at++] & 63);
        sum += c;
    }
    double seconds = (double)(clock() - start) / CLOCKS_PER_SEC;
    printf("decoded in C: %.0f MB/s (%llu)\n", size / 1e6 / seconds, sum);
    return 0;
}
