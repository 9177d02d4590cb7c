/* Answers each datagram on 127.0.0.1 with itself, as often as the second word says: echo PORT [TIMES] */
#include <arpa/inet.h>
#include <stdlib.h>
#include <sys/socket.h>

int main(int count, char **words) {
    int wire = socket(AF_INET, SOCK_DGRAM, 0), times = count > 2 ? atoi(words[2]) : 1;
    struct sockaddr_in here = {.sin_family = AF_INET,
                               .sin_port = htons(atoi(words[1])),
                               .sin_addr = {htonl(INADDR_LOOPBACK)}},
                       peer;
    if (bind(wire, (struct sockaddr *)&here, sizeof here)) return 1;
    char data[4100];
    for (;;) {
        socklen_t length = sizeof peer;
        ssize_t n = recvfrom(wire, data, sizeof data, 0, (struct sockaddr *)&peer, &length);
        for (int k = 0; n >= 0 && k < times; k++) sendto(wire, data, n, 0, (struct sockaddr *)&peer, length);
    }
}
