/* Plays the controller at 127.0.0.1, devices at 127.0.0.3 and strangers, for a relay that listens at 127.0.0.2. Device
   k is at the k-th port of each.

   relay_load ping CONTROLLER_PORT FIRST_LOCAL FIRST_DEVICE DEVICES COUNT
        a GO and its answer through the relay, one after the other, the devices by turns, so that none has more
        than its rate: microseconds of each, the median. A copy of a GO that comes late is passed over
   relay_load flow CONTROLLER_PORT FIRST_LOCAL FIRST_DEVICE DEVICES ORDERS ANSWERS SECONDS
        so many cancels a second for each device, of which no relay makes copies, and so many answers of each: how many
        were sent and came
   relay_load strangers FIRST_LOCAL PORTS COUNT
        datagrams of nobody whom the relay knows, to both of its sides */
#include <arpa/inet.h>
#include <pthread.h>
#include <stdint.h>
#include <stdio.h>
#include <stdlib.h>
#include <string.h>
#include <sys/epoll.h>
#include <sys/socket.h>
#include <time.h>
#include <unistd.h>

enum { MOST = 112, LENGTH = 40, ROOM = 4 << 20 };
static const char *const CONTROLLER = "127.0.0.1", *const RELAY = "127.0.0.2", *const DEVICES = "127.0.0.3";

static struct sockaddr_in at(const char *host, int port) {
  struct sockaddr_in address = {.sin_family = AF_INET, .sin_port = htons(port)};
  inet_pton(AF_INET, host, &address.sin_addr);
  return address;
}

static int bound(const char *host, int port) {
  struct sockaddr_in address = at(host, port);
  int wire = socket(AF_INET, SOCK_DGRAM, 0), room = ROOM;
  setsockopt(wire, SOL_SOCKET, SO_RCVBUF, &room, sizeof room);
  setsockopt(wire, SOL_SOCKET, SO_RCVBUFFORCE, &room, sizeof room);
  if (bind(wire, (struct sockaddr *)&address, sizeof address)) {
    perror("bind");
    exit(1);
  }
  return wire;
}

static void put(int wire, const char *host, int port, const uint8_t *bytes, int length) {
  struct sockaddr_in to = at(host, port);
  if (sendto(wire, bytes, length, 0, (struct sockaddr *)&to, sizeof to) != length) perror("sendto");
}

static int padded(int length) { return length + 4 - length % 4; }

static int put_number(uint8_t *bytes, int at, uint32_t number) {
  for (int k = 0; k < 4; k++) bytes[at + k] = number >> (24 - 8 * k);
  return at + 4;
}

/* An order, ,ii: the attempt's number, and the device's. */
static const char GO[] = "/msc/go_2pc\0,ii", CANCEL[] = "/msc/cancel\0,ii";

static void order(const char *what, int wire, const char *host, int port, int device, uint32_t seq) {
  uint8_t bytes[LENGTH];
  memcpy(bytes, what, 16);
  put(wire, host, port, bytes, put_number(bytes, put_number(bytes, 16, seq), device));
}

/* /device/N/complete ,i: the attempt's number. */
static void answer(int wire, const char *host, int port, int device, uint32_t seq) {
  uint8_t bytes[LENGTH] = {0};
  int tags = padded(sprintf((char *)bytes, "/device/%d/complete", device));
  memcpy(bytes + tags, ",i", 2);
  put(wire, host, port, bytes, put_number(bytes, tags + 4, seq));
}

static uint64_t nanoseconds(void) {
  struct timespec now;
  clock_gettime(CLOCK_MONOTONIC, &now);
  return now.tv_sec * 1000000000ull + now.tv_nsec;
}

static int by_size(const void *one, const void *other) {
  uint64_t a = *(const uint64_t *)one, b = *(const uint64_t *)other;
  return (a > b) - (a < b);
}

static int sockets[MOST + 1], devices;
static volatile int is_over;
static uint64_t came;

static void bind_all(int controller_port, int device, int count) {
  devices = count;
  for (int k = 0; k < count; k++) sockets[k] = bound(DEVICES, device + k);
  sockets[count] = bound(CONTROLLER, controller_port);
}

/* Whether what has this number, so many bytes before its end, comes at the socket within two seconds. */
static int hears(int wire, uint64_t begun, int before, uint32_t seq) {
  uint8_t bytes[LENGTH], wanted[4];
  put_number(wanted, 0, seq);
  for (;;) {
    int length = recv(wire, bytes, LENGTH, MSG_DONTWAIT);
    if (length >= before && !memcmp(bytes + length - before, wanted, 4)) return 1;
    if (length <= 0 && nanoseconds() - begun > 2000000000ull) return 0;
  }
}

static int ping(int controller_port, int local, int device, int count, int rounds) {
  bind_all(controller_port, device, count);
  uint64_t *took = calloc(rounds, sizeof *took);
  for (int k = 0; k < rounds; k++) {
    int one = k % count;
    uint64_t begun = nanoseconds();
    order(GO, sockets[count], CONTROLLER, local + one, one, k + 1);
    if (!hears(sockets[one], begun, 8, k + 1)) return puts("lost"), 1;
    answer(sockets[one], RELAY, local + one, one, k + 1);
    if (!hears(sockets[count], begun, 4, k + 1)) return puts("lost"), 1;
    took[k] = nanoseconds() - begun;
  }
  qsort(took, rounds, sizeof *took, by_size);
  printf("%.3f\n", took[rounds / 2] / 1000.0);
  return 0;
}

static void *drain(void *nothing) {
  int waiting = epoll_create1(0);
  for (int k = 0; k <= devices; k++) {
    struct epoll_event wanted = {.events = EPOLLIN, .data.fd = sockets[k]};
    epoll_ctl(waiting, EPOLL_CTL_ADD, sockets[k], &wanted);
  }
  while (!is_over) {
    struct epoll_event events[64];
    char bytes[LENGTH];
    int ready = epoll_wait(waiting, events, 64, 100);
    for (int k = 0; k < ready; k++)
      while (recv(events[k].data.fd, bytes, LENGTH, MSG_DONTWAIT) > 0) came++;
  }
  return nothing;
}

static int flow(int controller_port, int local, int device, int count, int orders, int answers, int seconds) {
  bind_all(controller_port, device, count);
  pthread_t drains;
  pthread_create(&drains, NULL, drain, NULL);
  uint64_t begun = nanoseconds(), sent = 0, rounds = (uint64_t)orders * seconds;
  for (uint64_t round = 0; round < rounds; round++) {
    int is_answered = round * answers / orders != (round + 1) * answers / orders;
    for (int k = 0; k < count; k++) {
      order(CANCEL, sockets[count], CONTROLLER, local + k, k, round + 1);
      if (is_answered) answer(sockets[k], RELAY, local + k, k, round + 1);
      sent += 1 + is_answered;
    }
    uint64_t due = begun + (round + 1) * 1000000000ull / orders, now = nanoseconds();
    if (due > now) nanosleep(&(struct timespec){0, due - now}, NULL);
  }
  double took = (nanoseconds() - begun) / 1e9;
  sleep(1);
  is_over = 1;
  pthread_join(drains, NULL);
  printf("%llu %llu %.1f\n", (unsigned long long)sent, (unsigned long long)came, took);
  return 0;
}

static int strangers(int local, int ports, int count) {
  int near = bound(CONTROLLER, 0), far = bound(DEVICES, 0);
  for (int k = 0; k < count; k++) {
    int one = k / 2 % ports;
    if (k % 2) order(GO, near, CONTROLLER, local + one, one, k + 1);
    else answer(far, RELAY, local + one, one, k + 1);
    if (k % 32 == 31) nanosleep(&(struct timespec){0, 100000}, NULL);
  }
  return 0;
}

int main(int count, char **words) {
  int numbers[8] = {0};
  for (int k = 2; k < count && k < 10; k++) numbers[k - 2] = atoi(words[k]);
  if (count == 7 && !strcmp(words[1], "ping")) return ping(numbers[0], numbers[1], numbers[2], numbers[3], numbers[4]);
  if (count == 9 && !strcmp(words[1], "flow"))
    return flow(numbers[0], numbers[1], numbers[2], numbers[3], numbers[4], numbers[5], numbers[6]);
  if (count == 5 && !strcmp(words[1], "strangers")) return strangers(numbers[0], numbers[1], numbers[2]);
  fputs("see the top of relay_load.c\n", stderr);
  return 2;
}
