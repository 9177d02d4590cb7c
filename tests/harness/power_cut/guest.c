/* The first process of a small machine. It loads the modules, and then carries out the lines that come through the port
   of the machine. Each gets a line back, which begins with `ok` or with `no`:

     sh COMMAND              its status, and what it printed, in hexadecimal
     start FILE COMMAND      the number of a process that runs on; what it prints goes to the file
     stop NUMBER             kills it, and waits until it is gone
     mount DEVICE TYPE OPTIONS     why it cannot be mounted: a number of errno
     umount
     say PORT TO BYTES       sends a datagram on 127.0.0.1
     hear PORT MILLISECONDS  the next datagram at a port, in hexadecimal; `no` if none comes
     read FILE               its bytes, in hexadecimal */
#define _GNU_SOURCE
#include <arpa/inet.h>
#include <errno.h>
#include <fcntl.h>
#include <glob.h>
#include <net/if.h>
#include <poll.h>
#include <signal.h>
#include <stdio.h>
#include <stdlib.h>
#include <string.h>
#include <sys/ioctl.h>
#include <sys/mount.h>
#include <sys/socket.h>
#include <sys/stat.h>
#include <sys/syscall.h>
#include <sys/wait.h>
#include <unistd.h>

enum { MOST = 1 << 22, PORTS = 65536 };
static char line[MOST], bytes[MOST], answer[2 * MOST + 64];
static int socket_at[PORTS];
static const char *root = "/mnt";

static void load_modules(void) {
    char name[256];
    FILE *list = fopen("/modules/list", "r");
    while (list && fscanf(list, "%255s", name) == 1) {
        int file = open(name, O_RDONLY);
        if (syscall(SYS_finit_module, file, "", 0) && errno != EEXIST) printf("%s: %s\n", name, strerror(errno));
        close(file);
    }
}

static void bring_up_loopback(void) {
    struct ifreq request = {.ifr_name = "lo", .ifr_flags = IFF_UP | IFF_RUNNING};
    int wire = socket(AF_INET, SOCK_DGRAM, 0);
    ioctl(wire, SIOCSIFFLAGS, &request);
    close(wire);
}

static void begin_machine(void) {
    mount("devtmpfs", "/dev", "devtmpfs", 0, "");
    mount("proc", "/proc", "proc", 0, "");
    mount("sysfs", "/sys", "sysfs", 0, "");
    int console = open("/dev/console", O_RDWR);
    for (int file = 0; file < 3 && console >= 0; file++) dup2(console, file);
    setvbuf(stdout, NULL, _IONBF, 0);
    load_modules();
    setenv("PATH", "/bin", 1);
}

static void in_hexadecimal(char *to, const char *from, size_t count) {
    for (size_t k = 0; k < count; k++) to += sprintf(to, "%02x", (unsigned char)from[k]);
    *to = 0;
}

static size_t from_hexadecimal(const char *text) {
    size_t count = 0;
    for (unsigned value; sscanf(text + 2 * count, "%2x", &value) == 1; count++) bytes[count] = (char)value;
    return count;
}

static size_t read_all(int file) {
    size_t count = 0;
    for (ssize_t got; (got = read(file, bytes + count, MOST / 2 - count)) > 0;) count += (size_t)got;
    return count;
}

/* A child that runs the command in a shell; what it prints goes to this file. */
static pid_t run(const char *command, int output) {
    pid_t child = fork();
    if (child) return child;
    setsid();
    dup2(output, 1);
    dup2(output, 2);
    execl("/bin/sh", "sh", "-c", command, NULL);
    _exit(127);
}

static void shell(const char *command) {
    int ends[2], status = 0;
    if (pipe2(ends, O_CLOEXEC)) return;
    pid_t child = run(command, ends[1]);
    close(ends[1]);
    size_t count = read_all(ends[0]);
    close(ends[0]);
    waitpid(child, &status, 0);
    int head = sprintf(answer, "ok %d ", WIFEXITED(status) ? WEXITSTATUS(status) : 128 + WTERMSIG(status));
    in_hexadecimal(answer + head, bytes, count);
}

/* What cannot be done is said with the number of its reason. */
static void tell(int failed) {
    if (failed) sprintf(answer, "no %d", errno);
    else strcpy(answer, "ok");
}

static void mount_disk(char *words) {
    char *device = strtok(words, " "), *type = strtok(NULL, " "), *options = strtok(NULL, " ");
    tell(mount(device, root, type, MS_NOATIME, options ? options : ""));
}

static void stop(pid_t child) {
    kill(-child, SIGKILL);
    kill(child, SIGKILL);
    waitpid(child, NULL, 0);
}

static int socket_of(int port) {
    struct sockaddr_in own = {.sin_family = AF_INET, .sin_port = htons((unsigned short)port)};
    own.sin_addr.s_addr = htonl(INADDR_LOOPBACK);
    if (!socket_at[port]) {
        socket_at[port] = socket(AF_INET, SOCK_DGRAM | SOCK_CLOEXEC, 0);
        if (bind(socket_at[port], (struct sockaddr *)&own, sizeof own)) printf("port %d: %s\n", port, strerror(errno));
    }
    return socket_at[port];
}

static void say(char *words) {
    int port = atoi(strtok(words, " ")), to = atoi(strtok(NULL, " "));
    struct sockaddr_in there = {.sin_family = AF_INET, .sin_port = htons((unsigned short)to)};
    there.sin_addr.s_addr = htonl(INADDR_LOOPBACK);
    size_t count = from_hexadecimal(strtok(NULL, " "));
    tell(sendto(socket_of(port), bytes, count, 0, (struct sockaddr *)&there, sizeof there) < 0);
}

static void hear(const char *words) {
    int port = 0, wait = 0;
    sscanf(words, "%d %d", &port, &wait);
    struct pollfd one = {.fd = socket_of(port), .events = POLLIN};
    ssize_t count = poll(&one, 1, wait) > 0 ? recv(one.fd, bytes, MOST / 2, 0) : -1;
    strcpy(answer, count < 0 ? "no" : "ok ");
    if (count >= 0) in_hexadecimal(answer + 3, bytes, (size_t)count);
}

static void read_file(const char *name) {
    int file = open(name, O_RDONLY | O_CLOEXEC);
    if (file < 0) return tell(1);
    errno = 0;
    size_t count = read_all(file);
    int failed = errno;
    close(file);
    errno = failed;
    if (failed) return tell(1);
    strcpy(answer, "ok ");
    in_hexadecimal(answer + 3, bytes, count);
}

static void start(char *words) {
    char *command = strchr(words, ' ');
    *command = 0;
    int output = open(words, O_CREAT | O_TRUNC | O_RDWR | O_CLOEXEC, 0600);
    sprintf(answer, "ok %d", run(command + 1, output));
    close(output);
}

static void carry_out(void) {
    char *rest = strchr(line, ' ');
    rest = rest ? rest + 1 : line + strlen(line);
    strcpy(answer, "no such word");
    if (!strncmp(line, "sh ", 3)) shell(rest);
    else if (!strncmp(line, "start ", 6)) start(rest);
    else if (!strncmp(line, "stop ", 5)) stop(atoi(rest)), tell(0);
    else if (!strncmp(line, "mount ", 6)) mount_disk(rest);
    else if (!strncmp(line, "umount", 6)) tell(umount(root));
    else if (!strncmp(line, "say ", 4)) say(rest);
    else if (!strncmp(line, "hear ", 5)) hear(rest);
    else if (!strncmp(line, "read ", 5)) read_file(rest);
}

static int opened_port(void) {
    glob_t found;
    while (glob("/dev/vport*", 0, NULL, &found)) usleep(10000);
    return open(found.gl_pathv[0], O_RDWR | O_CLOEXEC);
}

static void write_answer(int port) {
    size_t count = strlen(answer);
    answer[count++] = '\n';
    for (size_t done = 0; done < count;) {
        ssize_t some = write(port, answer + done, count - done);
        if (some > 0) done += (size_t)some;
        else usleep(10000);
    }
}

/* Nobody is at the other end of the port at first: then it reads as if it had ended. With the number of an open file
   and a folder it is no first process: that file is its port, and there the disk is mounted. */
int main(int count, char **words) {
    if (count < 3) begin_machine();
    else root = words[2];
    bring_up_loopback();
    setenv("ASAN_OPTIONS", "detect_leaks=0", 1);
    int port = count < 3 ? opened_port() : atoi(words[1]);
    FILE *in = fdopen(port, "r");
    for (;;) {
        if (fgets(line, MOST, in)) {
            line[strcspn(line, "\n")] = 0;
            carry_out();
            write_answer(port);
        } else {
            clearerr(in);
            usleep(10000);
        }
    }
}
