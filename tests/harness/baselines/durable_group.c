/* Answers what waits on 127.0.0.1 together, once all of it is safe in a file, in the same way as a group of made
   commands: the bodies of the records are written in one piece and synced, and then the first gate, and synced. After
   256 records it begins at the front again: durable_group PORT FILE */
#include <arpa/inet.h>
#include <fcntl.h>
#include <stdlib.h>
#include <string.h>
#include <sys/socket.h>
#include <unistd.h>

enum { RECORD = 10, START = 100, RECORDS = 256, MOST = 128, LONGEST = 4100 };

static char data[MOST][LONGEST], body[MOST * RECORD];
static ssize_t got[MOST];
static struct sockaddr_in peer[MOST];

static int keep(int file, off_t gate, size_t length) {
    return pwrite(file, body, length, gate + 1) == (ssize_t)length && !fdatasync(file) &&
           pwrite(file, "\1", 1, gate) == 1 && !fdatasync(file);
}

/* How many datagrams are taken together: it waits for the first, and then looks for what is there. */
static int take(int wire) {
    int count = 0;
    while (count < MOST) {
        socklen_t length = sizeof peer[count];
        int flags = count ? MSG_DONTWAIT : 0;
        got[count] = recvfrom(wire, data[count], LONGEST, flags, (struct sockaddr *)&peer[count], &length);
        if (got[count] < RECORD) return count;
        memcpy(body + count * RECORD, data[count], RECORD);
        count++;
    }
    return count;
}

int main(int words, char **word) {
    if (words < 3) return 2;
    int wire = socket(AF_INET, SOCK_DGRAM, 0), file = open(word[2], O_RDWR | O_CREAT, 0644);
    struct sockaddr_in here = {.sin_family = AF_INET,
                               .sin_port = htons(atoi(word[1])),
                               .sin_addr = {htonl(INADDR_LOOPBACK)}};
    char zeros[START] = {0};
    if (bind(wire, (struct sockaddr *)&here, sizeof here) || pwrite(file, zeros, START, 0) != START) return 1;
    for (long records = 0;;) {
        int count = take(wire);
        if (records + count > RECORDS) records = 0;
        if (!count || !keep(file, START + records * RECORD, (size_t)count * RECORD)) return 1;
        records += count;
        for (int k = 0; k < count; k++) sendto(wire, data[k], got[k], 0, (struct sockaddr *)&peer[k], sizeof peer[k]);
    }
}
