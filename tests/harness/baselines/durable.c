/* Answers each datagram on 127.0.0.1 once it is safe in a file, in the same way as a made command: the body of a
   record is written and synced, and then its gate. After 256 records it begins at the front again: durable PORT FILE
 */
#include <arpa/inet.h>
#include <fcntl.h>
#include <stdlib.h>
#include <sys/socket.h>
#include <unistd.h>

enum { RECORD = 10, START = 100, RECORDS = 256 };

static int keep(int file, off_t gate, const char *body) {
    return pwrite(file, body, RECORD, gate + 1) == RECORD && !fdatasync(file) && pwrite(file, "\1", 1, gate) == 1 &&
           !fdatasync(file);
}

int main(int count, char **words) {
    if (count < 3) return 2;
    int wire = socket(AF_INET, SOCK_DGRAM, 0), file = open(words[2], O_RDWR | O_CREAT, 0644);
    struct sockaddr_in here = {.sin_family = AF_INET,
                               .sin_port = htons(atoi(words[1])),
                               .sin_addr = {htonl(INADDR_LOOPBACK)}},
                       peer;
    char data[4100], zeros[START] = {0};
    if (bind(wire, (struct sockaddr *)&here, sizeof here) || pwrite(file, zeros, START, 0) != START) return 1;
    for (long n = 0;; n++) {
        socklen_t length = sizeof peer;
        ssize_t got = recvfrom(wire, data, sizeof data, 0, (struct sockaddr *)&peer, &length);
        if (got < RECORD || !keep(file, START + n % RECORDS * RECORD, data)) return 1;
        sendto(wire, data, got, 0, (struct sockaddr *)&peer, length);
    }
}
