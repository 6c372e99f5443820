/* The peer in C, in place: a 64-bit window, and 64 lives in an array. Its structures are those of window.rs. */
#include <stdbool.h>
#include <stddef.h>
#include <stdint.h>

enum { LIVES = 64, WINDOW = 64, AH = 2, ESP = 3, ACCEPTED = 0 };

struct window {
    uint64_t highest;
    uint64_t seen;
};

struct life {
    uint32_t spi;
    uint32_t destination;
    uint8_t protocol;
    bool used;
    struct window window;
};

uint32_t c_step(struct window *w, uint32_t number, bool integrity, uint64_t *rise)
{
    uint64_t n = number;
    if (n == 0 || n + WINDOW <= w->highest)
        return 8197;
    if (n > w->highest) {
        if (!integrity)
            return 24;
        uint64_t up = n - w->highest;
        w->seen = up < WINDOW ? w->seen << up | 1 : 1;
        w->highest = n;
        *rise = up;
        return ACCEPTED;
    }
    uint64_t bit = (uint64_t)1 << (w->highest - n);
    if (w->seen & bit)
        return 8194;
    if (!integrity)
        return 24;
    w->seen |= bit;
    *rise = 0;
    return ACCEPTED;
}

static uint32_t be32(const uint8_t *s)
{
    return (uint32_t)s[0] << 24 | (uint32_t)s[1] << 16 | (uint32_t)s[2] << 8 | s[3];
}

uint32_t c_packet(struct life lives[LIVES], uint32_t destination, uint8_t protocol, bool integrity, const uint8_t *s, size_t length,
                  uint64_t *rise)
{
    uint32_t spi, number;
    if (protocol == AH) {
        if (length < 12 || s[2] != 0 || s[3] != 0)
            return 16;
        size_t size = ((size_t)s[1] + 2) * 4;
        if (size < 12 || size > length)
            return 16;
        spi = be32(s + 4);
        number = be32(s + 8);
    } else if (protocol == ESP) {
        if (length < 8)
            return 16;
        spi = be32(s);
        number = be32(s + 4);
    } else {
        return 10;
    }
    for (int i = 0; i < LIVES; i++) {
        struct life *life = &lives[i];
        if (life->spi == spi && life->destination == destination && life->protocol == protocol && life->used)
            return c_step(&life->window, number, integrity, rise);
    }
    return 11;
}
