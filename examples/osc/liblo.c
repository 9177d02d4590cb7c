/* Answers the standby of device 3 with liblo, as docs/DEVICES.md asks for it. The other duties are left to you.
 *
 *     cc examples/osc/liblo.c -llo -o /tmp/device
 *
 * Tried with Debian's liblo-dev 0.31. lo_send sends from another port, lo_send_from from the one that listens. Give
 * cue_hear what recvfrom gives at lo_server_get_socket_fd, and never what lo_message_serialise makes: of a message in a
 * bundle, or with wrong padding, that would make an order (10c, 10d). */
#include <lo/lo.h>
#include <stddef.h>

static int standby(const char *path, const char *types, lo_arg **arg, int count, lo_message message, void *server)
{
    lo_address from = lo_message_get_source(message);
    (void)path, (void)types, (void)count;
    if (arg[1]->i == 3)
        lo_send_from(from, server, LO_TT_IMMEDIATE, "/device/3/standing_by", "i", arg[0]->i);
    return 0;
}

int main(void)
{
    lo_server server = lo_server_new("9001", NULL);
    lo_server_add_method(server, "/msc/standby", "iisb", standby, server);
    for (;;)
        lo_server_recv(server);
}
