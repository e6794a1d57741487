/* Prints the listing of the file named, or of the standard input. */
#include "peer.h"

#include <stdio.h>

int main(int count, char **words) {
    /* One byte more than the listing looks at, so that a longer input is seen to be too long. */
    static unsigned char input[PEER_LONGEST_INPUT + 1];
    static char output[PEER_LISTING_ROOM];
    FILE *file = count > 1 ? fopen(words[1], "rb") : stdin;
    if (!file) {
        perror(words[1]);
        return 2;
    }
    size_t length = fread(input, 1, sizeof input, file);
    size_t written = peer_listing(input, length, output, sizeof output);
    return fwrite(output, 1, written, stdout) == written && fflush(stdout) == 0 ? 0 : 2;
}
