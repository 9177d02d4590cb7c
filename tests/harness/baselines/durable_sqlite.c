/* Answers each datagram on 127.0.0.1 once it is safe in an SQLite database, in WAL mode with full sync: one row is
   changed in one transaction: durable_sqlite PORT FILE. It is linked with -lsqlite3. */
#include <arpa/inet.h>
#include <sqlite3.h>
#include <stdlib.h>
#include <sys/socket.h>

static const char *set_up =
    "PRAGMA journal_mode = WAL; PRAGMA synchronous = FULL;"
    "CREATE TABLE show(name TEXT PRIMARY KEY, value BLOB); INSERT INTO show VALUES('place', '1');";

int main(int count, char **words) {
    if (count < 3) return 2;
    int wire = socket(AF_INET, SOCK_DGRAM, 0);
    struct sockaddr_in here = {.sin_family = AF_INET,
                               .sin_port = htons(atoi(words[1])),
                               .sin_addr = {htonl(INADDR_LOOPBACK)}},
                       peer;
    sqlite3 *base;
    sqlite3_stmt *change;
    if (bind(wire, (struct sockaddr *)&here, sizeof here) || sqlite3_open(words[2], &base) ||
        sqlite3_exec(base, set_up, 0, 0, 0))
        return 1;
    if (sqlite3_prepare_v2(base, "UPDATE show SET value = ? WHERE name = 'place'", -1, &change, 0)) return 1;
    for (char data[4100];;) {
        socklen_t length = sizeof peer;
        ssize_t n = recvfrom(wire, data, sizeof data, 0, (struct sockaddr *)&peer, &length);
        sqlite3_bind_blob(change, 1, data, n, SQLITE_STATIC);
        if (n < 0 || sqlite3_step(change) != SQLITE_DONE) return 1;
        sqlite3_reset(change);
        sendto(wire, data, n, 0, (struct sockaddr *)&peer, length);
    }
}
