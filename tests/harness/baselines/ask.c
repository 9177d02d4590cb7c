/* Sends two datagrams in turn, each once the one before it is answered, and prints how long an answer took, in
   nanoseconds, the best and the median: ask PORT COUNT ANSWERS HEX HEX. ANSWERS is how many datagrams an answer has.
 */
#include <arpa/inet.h>
#include <stdio.h>
#include <stdlib.h>
#include <string.h>
#include <sys/socket.h>
#include <sys/time.h>
#include <time.h>

static char question[2][4100];
static size_t length[2];

static void read_hex(int k, const char *text) {
    for (length[k] = strlen(text) / 2; text[0] && text[1]; text += 2) {
        char two[3] = {text[0], text[1], 0};
        question[k][length[k] - strlen(text) / 2] = (char)strtol(two, 0, 16);
    }
}

static long now(void) {
    struct timespec t;
    clock_gettime(CLOCK_MONOTONIC, &t);
    return t.tv_sec * 1000000000L + t.tv_nsec;
}

static int rising(const void *a, const void *b) { return (*(long *)a > *(long *)b) - (*(long *)a < *(long *)b); }

int main(int words, char **word) {
    if (words < 6) return 2;
    int wire = socket(AF_INET, SOCK_DGRAM, 0), count = atoi(word[2]), answers = atoi(word[3]);
    struct sockaddr_in there = {
        .sin_family = AF_INET, .sin_port = htons(atoi(word[1])), .sin_addr = {htonl(INADDR_LOOPBACK)}};
    struct timeval patience = {5, 0};
    if (connect(wire, (struct sockaddr *)&there, sizeof there) ||
        setsockopt(wire, SOL_SOCKET, SO_RCVTIMEO, &patience, sizeof patience))
        return 1;
    read_hex(0, word[4]);
    read_hex(1, word[5]);
    long *taken = malloc(count * sizeof *taken);
    char data[4100];
    for (int n = 0; n < count; n++) {
        long from = now();
        if (send(wire, question[n % 2], length[n % 2], 0) < 0) return 1;
        for (int k = 0; k < answers; k++)
            if (recv(wire, data, sizeof data, 0) < 0) return 1;
        taken[n] = now() - from;
    }
    qsort(taken, count, sizeof *taken, rising);
    printf("%ld %ld\n", taken[0], taken[count / 2]);
}
