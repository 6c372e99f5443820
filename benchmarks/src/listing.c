/* What benchmarks/capture needs besides the programs that it times.
   listing make PACKETS: a capture of so many ESP packets on standard output, the same ones each time.
   listing run OUTPUT COMMAND ..: runs the command with its standard output to a file, and prints its seconds and its peak resident KiB. */
#include <fcntl.h>
#include <stdint.h>
#include <stdio.h>
#include <stdlib.h>
#include <string.h>
#include <sys/resource.h>
#include <sys/wait.h>
#include <time.h>
#include <unistd.h>

enum { SAS = 8, PAYLOAD = 100, ETHERNET = 14, IPV4 = 20, ESP = 8, RECORD = 16 };
enum { IP_SIZE = IPV4 + ESP + PAYLOAD, FRAME = ETHERNET + IP_SIZE, PACKETS_A_SECOND = 5000 };

/* Xorshift: the same numbers each time. */
static uint32_t below(uint32_t bound)
{
    static uint64_t state = 0x9e3779b97f4a7c15;
    state ^= state << 13;
    state ^= state >> 7;
    state ^= state << 17;
    return (uint32_t)(state >> 32) % bound;
}

static void put16(uint8_t *at, uint32_t value)
{
    at[0] = (uint8_t)(value >> 8);
    at[1] = (uint8_t)value;
}

static void put32(uint8_t *at, uint32_t value)
{
    put16(at, value >> 16);
    put16(at + 2, value);
}

/* Mostly in order; of 100 packets one comes after a loss, one is a repeat and one comes late. */
static uint32_t next(uint32_t *highest)
{
    switch (below(100)) {
    case 0:
        return *highest += 2 + below(8);
    case 1:
        return *highest > 0 ? *highest : ++*highest;
    case 2:
        return *highest > 64 ? *highest - below(64) : ++*highest;
    default:
        return ++*highest;
    }
}

static void checksum(uint8_t *header)
{
    uint32_t sum = 0;
    for (int i = 0; i < IPV4; i += 2) sum += (uint32_t)header[i] << 8 | header[i + 1];
    while (sum > 0xffff) sum = (sum & 0xffff) + (sum >> 16);
    put16(header + 10, ~sum);
}

static void frame(uint8_t *at, uint32_t packet, uint32_t sa, uint32_t number)
{
    static const uint8_t ethernet[ETHERNET] = {2, 0, 0, 0, 0, 1, 2, 0, 0, 0, 0, 2, 0x08, 0x00};
    memcpy(at, ethernet, ETHERNET);
    uint8_t *ip = at + ETHERNET;
    memset(ip, 0, IPV4);
    ip[0] = 0x45;
    put16(ip + 2, IP_SIZE);
    put16(ip + 4, packet);
    ip[8] = 64;
    ip[9] = 50;
    put32(ip + 12, 0xc6336401);
    put32(ip + 16, 0xc000020a + sa);
    checksum(ip);
    uint8_t *esp = ip + IPV4;
    put32(esp, 0x10000000 + 0x01010101 * sa);
    put32(esp + 4, number);
    for (int i = 0; i < PAYLOAD; i += 4) put32(esp + ESP + i, below(UINT32_MAX));
}

/* All numbers of the file and record headers are in this machine's byte order. */
static int make(uint32_t packets)
{
    const uint32_t header[] = {0xa1b2c3d4, 0, 0, 0, 262144, 1};
    uint8_t file[sizeof header];
    memcpy(file, header, sizeof header);
    memcpy(file + 4, (const uint16_t[]){2, 4}, 4);
    fwrite(file, sizeof file, 1, stdout);
    uint32_t highest[SAS] = {0};
    for (uint32_t packet = 0; packet < packets; packet++) {
        uint8_t record[RECORD + FRAME];
        const uint32_t seconds = 1772442000 + packet / PACKETS_A_SECOND;
        const uint32_t microseconds = packet % PACKETS_A_SECOND * (1000000 / PACKETS_A_SECOND);
        memcpy(record, (const uint32_t[]){seconds, microseconds, FRAME, FRAME}, RECORD);
        const uint32_t sa = below(SAS);
        frame(record + RECORD, packet, sa, next(&highest[sa]));
        if (fwrite(record, sizeof record, 1, stdout) != 1) return 1;
    }
    return fflush(stdout) != 0;
}

static double now(void)
{
    struct timespec time;
    clock_gettime(CLOCK_MONOTONIC, &time);
    return (double)time.tv_sec + (double)time.tv_nsec / 1e9;
}

/* A child counts the memory of this program until it becomes the command, so this program stays small. */
static int run(const char *output, char **command)
{
    const int to = open(output, O_WRONLY | O_CREAT | O_TRUNC | O_CLOEXEC, 0666);
    if (to < 0) {
        perror(output);
        return 1;
    }
    const double begin = now();
    const pid_t child = fork();
    if (child == 0) {
        dup2(to, STDOUT_FILENO);
        execvp(command[0], command);
        perror(command[0]);
        _exit(127);
    }
    int status;
    struct rusage used;
    if (child < 0 || wait4(child, &status, 0, &used) != child || status != 0) {
        fprintf(stderr, "listing: %s broke off\n", command[0]);
        return 1;
    }
    printf("%.4f %ld\n", now() - begin, used.ru_maxrss);
    return 0;
}

int main(int count, char **words)
{
    if (count == 3 && strcmp(words[1], "make") == 0) return make((uint32_t)strtoul(words[2], NULL, 10));
    if (count > 3 && strcmp(words[1], "run") == 0) return run(words[2], words + 3);
    fprintf(stderr, "listing make PACKETS, or listing run OUTPUT COMMAND ..\n");
    return 2;
}
