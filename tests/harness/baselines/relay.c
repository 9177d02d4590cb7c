/* The baseline of the relay: the same sockets, the same test of the sender, one loop over epoll, in C.

   relay CONTROLLER_PORT LISTEN PORT=HOST:PORT ..    runs until a signal ends it */
#include <arpa/inet.h>
#include <stdio.h>
#include <stdlib.h>
#include <string.h>
#include <sys/epoll.h>
#include <sys/socket.h>
#include <unistd.h>

enum { MOST = 112, LONGEST = 4096 };

static struct { int sockets[2]; struct sockaddr_in who[2]; } routes[MOST];

static struct sockaddr_in at(const char *host, int port) {
  struct sockaddr_in address = {.sin_family = AF_INET, .sin_port = htons(port)};
  if (inet_pton(AF_INET, host, &address.sin_addr) != 1) exit(2);
  return address;
}

static int bound(struct sockaddr_in address) {
  int wire = socket(AF_INET, SOCK_DGRAM | SOCK_NONBLOCK, 0);
  if (wire < 0 || bind(wire, (struct sockaddr *)&address, sizeof address)) {
    perror("bind");
    exit(1);
  }
  return wire;
}

static void pass(int route, int side) {
  static char buffer[LONGEST + 4];
  struct sockaddr_in from;
  socklen_t size = sizeof from;
  ssize_t n = recvfrom(routes[route].sockets[side], buffer, sizeof buffer, 0, (struct sockaddr *)&from, &size);
  const struct sockaddr_in *known = &routes[route].who[side], *to = &routes[route].who[!side];
  if (n < 0 || n > LONGEST || from.sin_port != known->sin_port || from.sin_addr.s_addr != known->sin_addr.s_addr) return;
  (void)!sendto(routes[route].sockets[!side], buffer, n, 0, (const struct sockaddr *)to, sizeof *to);
}

int main(int count, char **words) {
  struct sockaddr_in controller = at("127.0.0.1", atoi(words[1]));
  int waiting = epoll_create1(0), n = count - 3;
  for (int k = 0; k < n && k < MOST; k++) {
    int local, port;
    char host[16];
    if (sscanf(words[3 + k], "%d=%15[^:]:%d", &local, host, &port) != 3) return 2;
    routes[k].who[0] = controller;
    routes[k].who[1] = at(host, port);
    routes[k].sockets[0] = bound(at("127.0.0.1", local));
    routes[k].sockets[1] = bound(at(words[2], local));
    for (int side = 0; side < 2; side++) {
      struct epoll_event wanted = {.events = EPOLLIN, .data.u32 = 2 * k + side};
      epoll_ctl(waiting, EPOLL_CTL_ADD, routes[k].sockets[side], &wanted);
    }
  }
  puts("relaying");
  fflush(stdout);
  for (;;) {
    struct epoll_event events[64];
    int ready = epoll_wait(waiting, events, 64, -1);
    for (int k = 0; k < ready; k++) pass(events[k].data.u32 / 2, events[k].data.u32 % 2);
  }
}
