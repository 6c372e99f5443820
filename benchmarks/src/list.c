/* The plain window's peer in C. Its list is that of list.rs. */
#include <stdbool.h>
#include <stddef.h>
#include <stdint.h>

enum { HELD = 4096, WINDOW = 64 };

struct list {
    uint64_t count;
    uint64_t numbers[HELD];
};

static size_t held(const struct list *list)
{
    return list->count < HELD ? list->count : HELD;
}

static uint64_t highest(const struct list *list)
{
    uint64_t highest = 0;
    for (size_t i = 0, n = held(list); i < n; i++)
        if (list->numbers[i] > highest)
            highest = list->numbers[i];
    return highest;
}

static bool contains(const struct list *list, uint64_t number)
{
    for (size_t i = 0, n = held(list); i < n; i++)
        if (list->numbers[i] == number)
            return true;
    return false;
}

uint32_t c_plain_step(struct list *list, uint32_t number, bool integrity, uint64_t *rise)
{
    uint64_t h = highest(list);
    uint64_t n = number;
    if (n == 0 || n + WINDOW <= h)
        return 8197;
    if (contains(list, n))
        return 8194;
    if (!integrity)
        return 24;
    size_t count = held(list);
    if (count == HELD)
        return 8202;
    list->numbers[count] = n;
    list->count = count + 1;
    *rise = n > h ? n - h : 0;
    return 0;
}

uint32_t c_plain_loss_line(const struct list *list, uint64_t out[3])
{
    uint64_t h = highest(list);
    uint64_t span = h < WINDOW ? h : WINDOW;
    uint64_t count = 0;
    for (uint64_t n = h - span + 1; n <= h; n++)
        count += contains(list, n);
    out[0] = h;
    out[1] = span;
    out[2] = count;
    return 0;
}
