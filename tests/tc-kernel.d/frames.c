/*
 * Sends and captures frames at instants of CLOCK_TAI, the clock of a bridge with PTP.
 *
 *   frames tai SECONDS          sets how far CLOCK_TAI is ahead of UTC
 *   frames now                  prints CLOCK_TAI in ns
 *   frames run START END FILE   sends the frames of a file and captures until END. All instants but START are ns after START
 *
 * Lines of FILE:
 *   send AT SPACE INTERFACE ADDRESS VLAN PRIORITY OCTETS NUMBER   OCTETS are from the address to the FCS; with VLAN 0 there is no tag
 *   capture SPACE INTERFACE NAME                                  SPACE is a network namespace
 *
 * It prints a line for each captured frame: NAME, `in` or `out`, NUMBER, instant, OCTETS. The number is 0 if `frames` didn't send the frame. The
 * last line is `late NS`: how late a frame was sent at most.
 */
#define _GNU_SOURCE
#include <arpa/inet.h>
#include <errno.h>
#include <fcntl.h>
#include <linux/if_ether.h>
#include <linux/if_packet.h>
#include <net/if.h>
#include <sched.h>
#include <stdio.h>
#include <stdlib.h>
#include <string.h>
#include <sys/socket.h>
#include <sys/timex.h>
#include <time.h>
#include <unistd.h>

enum { SECOND = 1000000000, LONGEST = 1522, TAG = 4, FCS = 4, ADDRESSES = 12 };
enum { MOST_FRAMES = 20000, MOST_SOCKETS = 400, NAME = 64 };

/* what follows the addresses and the tag: an EtherType for experiments, a word of our own, and then the frame's number */
static const unsigned char BEGINNING[6] = { 0x88, 0xb5, 'C', 'Q', 'F', '!' };

struct frame {
    long long at;
    int socket, length;
    unsigned char text[LONGEST];
};

struct place {
    int socket;
    char name[2 * NAME];
};

static struct frame frames[MOST_FRAMES];
static struct place senders[MOST_SOCKETS], captures[MOST_SOCKETS];
static int frame_count, sender_count, capture_count;

static void die(const char *what)
{
    perror(what);
    exit(1);
}

static void die_where(int is_wrong, const char *what)
{
    if (is_wrong)
        die(what);
}

static long long now(clockid_t clock)
{
    struct timespec at;

    clock_gettime(clock, &at);
    return (long long)at.tv_sec * SECOND + at.tv_nsec;
}

static void wait_until(long long instant)
{
    struct timespec at = { instant / SECOND, instant % SECOND };

    while (clock_nanosleep(CLOCK_TAI, TIMER_ABSTIME, &at, NULL) == EINTR)
        ;
}

/* returns a socket at an interface of a network namespace; with protocol 0 it receives nothing */
static int socket_at(const char *space, const char *interface, int protocol)
{
    struct sockaddr_ll address = { .sll_family = AF_PACKET, .sll_protocol = htons(protocol) };
    char path[2 * NAME];
    int file, made;

    snprintf(path, sizeof path, "/run/netns/%s", space);
    file = open(path, O_RDONLY);
    die_where(file < 0 || setns(file, CLONE_NEWNET) != 0, path);
    close(file);
    made = socket(AF_PACKET, SOCK_RAW, htons(protocol));
    address.sll_ifindex = if_nametoindex(interface);
    die_where(made < 0 || address.sll_ifindex == 0 || bind(made, (void *)&address, sizeof address) != 0, interface);
    return made;
}

static int sender_at(const char *space, const char *interface)
{
    char name[2 * NAME];

    snprintf(name, sizeof name, "%s/%s", space, interface);
    for (int k = 0; k < sender_count; k++)
        if (strcmp(senders[k].name, name) == 0)
            return senders[k].socket;
    die_where(sender_count == MOST_SOCKETS, "senders");
    strcpy(senders[sender_count].name, name);
    return senders[sender_count++].socket = socket_at(space, interface, 0);
}

static void add_capture(const char *space, const char *interface, const char *name)
{
    int made = socket_at(space, interface, ETH_P_ALL), one = 1, room = 8 << 20;

    die_where(capture_count == MOST_SOCKETS, "captures");
    die_where(setsockopt(made, SOL_SOCKET, SO_TIMESTAMPNS, &one, sizeof one) != 0, "SO_TIMESTAMPNS");
    die_where(setsockopt(made, SOL_PACKET, PACKET_AUXDATA, &one, sizeof one) != 0, "PACKET_AUXDATA");
    die_where(setsockopt(made, SOL_SOCKET, SO_RCVBUFFORCE, &room, sizeof room) != 0, "SO_RCVBUFFORCE");
    captures[capture_count].socket = made;
    strcpy(captures[capture_count++].name, name);
}

static void fill(unsigned char *to, const char *address, int vlan, int priority, unsigned number)
{
    sscanf(address, "%hhx:%hhx:%hhx:%hhx:%hhx:%hhx", to, to + 1, to + 2, to + 3, to + 4, to + 5);
    memcpy(to + 6, "\x02\x00\x00\x00\xaa\x01", 6);
    to += ADDRESSES;
    if (vlan) {
        unsigned char tag[TAG] = { 0x81, 0, priority << 5 | vlan >> 8, vlan };

        memcpy(to, tag, TAG);
        to += TAG;
    }
    memcpy(to, BEGINNING, sizeof BEGINNING);
    number = htonl(number);
    memcpy(to + sizeof BEGINNING, &number, sizeof number);
}

static void read_line(const char *line)
{
    char space[NAME], interface[NAME], name[NAME];
    int vlan, priority, octets;
    unsigned number;
    long long at;

    if (sscanf(line, "capture %63s %63s %63s", space, interface, name) == 3) {
        add_capture(space, interface, name);
    } else if (sscanf(line, "send %lld %63s %63s %63s %d %d %d %u", &at, space, interface, name, &vlan, &priority, &octets, &number) == 8) {
        struct frame *frame = &frames[frame_count++];

        die_where(frame_count == MOST_FRAMES, "frames");
        frame->at = at;
        frame->socket = sender_at(space, interface);
        frame->length = octets - FCS;
        fill(frame->text, name, vlan, priority, number);
    } else {
        fprintf(stderr, "frames: what is this? %s", line);
        exit(2);
    }
}

static void read_file(const char *path)
{
    FILE *file = fopen(path, "r");
    char line[500];

    die_where(!file, path);
    while (fgets(line, sizeof line, file))
        read_line(line);
    fclose(file);
}

/* sends all frames in order, and returns how late one was at most */
static long long send_all(long long start)
{
    long long most = 0;

    for (int k = 0; k < frame_count; k++) {
        long long late;

        wait_until(start + frames[k].at);
        late = now(CLOCK_TAI) - start - frames[k].at;
        most = late > most ? late : most;
        die_where(send(frames[k].socket, frames[k].text, frames[k].length, 0) < 0, "send");
    }
    return most;
}

/* returns the number in a frame, 0 if `frames` didn't send it */
static unsigned number_in(const unsigned char *text, long length)
{
    const unsigned char *at = text + ADDRESSES;
    unsigned number;

    if (at[0] == 0x81 && at[1] == 0)
        at += TAG;
    if (length < at - text + (long)sizeof BEGINNING + 4 || memcmp(at, BEGINNING, sizeof BEGINNING) != 0)
        return 0;
    memcpy(&number, at + sizeof BEGINNING, sizeof number);
    return ntohl(number);
}

/* prints the line of one captured frame; returns whether there was one */
static int take_frame(const struct place *capture, long long after_utc)
{
    unsigned char text[2048];
    char control[512];
    struct sockaddr_ll from;
    struct iovec room = { text, sizeof text };
    struct msghdr message = { &from, sizeof from, &room, 1, control, sizeof control, 0 };
    long length = recvmsg(capture->socket, &message, MSG_DONTWAIT);
    struct timespec at = { 0, 0 };
    int tag = 0;

    if (length < 0)
        return 0;
    for (struct cmsghdr *it = CMSG_FIRSTHDR(&message); it; it = CMSG_NXTHDR(&message, it)) {
        struct tpacket_auxdata more;

        if (it->cmsg_level == SOL_SOCKET && it->cmsg_type == SO_TIMESTAMPNS)
            memcpy(&at, CMSG_DATA(it), sizeof at);
        if (it->cmsg_level != SOL_PACKET || it->cmsg_type != PACKET_AUXDATA)
            continue;
        memcpy(&more, CMSG_DATA(it), sizeof more);
        tag = more.tp_status & TP_STATUS_VLAN_VALID ? TAG : 0;
    }
    printf("%s %s %u %lld %ld\n", capture->name, from.sll_pkttype == PACKET_OUTGOING ? "out" : "in", number_in(text, length),
           (long long)at.tv_sec * SECOND + at.tv_nsec + after_utc, length + tag + FCS);
    return 1;
}

static int run(long long start, long long end, const char *path)
{
    long long ahead = now(CLOCK_TAI) - now(CLOCK_REALTIME), late;

    ahead = (ahead + SECOND / 2) / SECOND * SECOND;
    read_file(path);
    late = send_all(start);
    wait_until(start + end);
    for (int k = 0; k < capture_count; k++)
        while (take_frame(&captures[k], ahead - start))
            ;
    printf("late %lld\n", late);
    return 0;
}

int main(int count, char **words)
{
    struct timex set = { .modes = ADJ_TAI };

    if (count == 5 && strcmp(words[1], "run") == 0)
        return run(atoll(words[2]), atoll(words[3]), words[4]);
    if (count == 2 && strcmp(words[1], "now") == 0)
        return printf("%lld\n", now(CLOCK_TAI)) < 0;
    if (count != 3 || strcmp(words[1], "tai") != 0)
        return 2;
    set.constant = atoi(words[2]);
    die_where(adjtimex(&set) < 0, "adjtimex");
    return 0;
}
