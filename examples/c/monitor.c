/*
 * A sample of the drive's monitor: calls both exports, and checks them against code of its own, which was written from
 * docs/HEALTH_POLLING.md and shares nothing with the library. Prints what it checked; ends with status 1 at the first difference.
 */
#include "health_rules.h"

#include <stdio.h>
#include <stdlib.h>

struct health {
    uint16_t status;
    uint16_t temperature;
    uint8_t used;
    uint8_t spare;
    uint8_t warning;
};

/* The code of every reading, filled range by range. */
static uint8_t codes[65536];

static void fill_codes(void)
{
    int celsius;

    codes[0] = 0x80;
    for (int kelvins = 1; kelvins <= 213; kelvins++)
        codes[kelvins] = 0xC4;
    for (celsius = -59; celsius <= -1; celsius++)
        codes[273 + celsius] = (uint8_t)(256 + celsius);
    for (celsius = 0; celsius <= 126; celsius++)
        codes[273 + celsius] = (uint8_t)celsius;
    for (int kelvins = 400; kelvins <= 65535; kelvins++)
        codes[kelvins] = 0x7F;
}

static int bit(unsigned word, int number)
{
    return (int)((word >> number) & 1u);
}

/* The flag rule, flag by flag. */
static uint16_t expected_flags(struct health old, struct health new)
{
    unsigned flags = 0;
    int level = 0;

    if (new.status >= 0x200 || new.warning >= 0x40)
        return 0xFFFF;
    for (int number = 0; number <= 5; number++)
        if (bit(old.status, number) != bit(new.status, number))
            level = 1;
    if (bit(old.status, 0) != bit(new.status, 0))
        flags |= 1u << 0;
    if (bit(old.status, 1) != bit(new.status, 1))
        flags |= 1u << 1;
    if (bit(old.status, 2) != bit(new.status, 2) || bit(old.status, 3) != bit(new.status, 3))
        flags |= 1u << 2;
    if (!bit(old.status, 4) && bit(new.status, 4))
        flags |= 1u << 4;
    if (bit(old.status, 5) != bit(new.status, 5))
        flags |= 1u << 5;
    if (bit(new.status, 6))
        flags |= 1u << 6;
    if (bit(new.status, 7))
        flags |= 1u << 7;
    if (level || bit(new.status, 6) || bit(new.status, 7) || bit(new.status, 8))
        flags |= 1u << 8;
    if (old.temperature != new.temperature)
        flags |= 1u << 9;
    if (old.used != new.used)
        flags |= 1u << 10;
    if (old.spare != new.spare)
        flags |= 1u << 11;
    if (old.warning != new.warning)
        flags |= 1u << 12;
    if (bit(new.status, 8))
        flags |= 1u << 13;
    return (uint16_t)flags;
}

static uint16_t gained(struct health old, struct health new)
{
    return changed_flags_gained(old.status, old.temperature, old.used, old.spare, old.warning, new.status, new.temperature, new.used, new.spare,
                                new.warning);
}

/* xorshift, from a fixed seed: every run checks the same inputs. */
static uint32_t state = 0x6021u;

static uint32_t next_random(void)
{
    state ^= state << 13;
    state ^= state >> 17;
    state ^= state << 5;
    return state;
}

/* Two reports in three are well formed, and a field is often as it was. */
static struct health random_health(struct health old)
{
    struct health h;
    uint32_t kind = next_random();

    h.status = (uint16_t)(next_random() >> 7);
    h.warning = (uint8_t)(next_random() >> 9);
    if (kind % 3 != 0) {
        h.status &= 0x1FF;
        h.warning &= 0x3F;
    }
    h.temperature = kind & 0x100 ? old.temperature : (uint16_t)(next_random() >> 11);
    h.used = kind & 0x200 ? old.used : (uint8_t)(next_random() >> 5);
    h.spare = kind & 0x400 ? old.spare : (uint8_t)(next_random() >> 3);
    if (kind & 0x800)
        h.warning = old.warning;
    return h;
}

int main(void)
{
    const long rounds = 1000000;
    struct health old = {0, 298, 3, 100, 0};
    struct health ready = {1, 298, 3, 100, 0};
    struct health nac = {0x40, 298, 3, 100, 0};
    long malformed = 0;

    fill_codes();
    for (unsigned kelvins = 0; kelvins <= 65535; kelvins++) {
        uint8_t code = composite_temperature_code((uint16_t)kelvins);
        if (code != codes[kelvins]) {
            printf("temperature code of %u: %02X, expected %02X\n", kelvins, code, codes[kelvins]);
            return EXIT_FAILURE;
        }
    }
    printf("temperature codes checked: 65536\n");
    if (gained(old, ready) != 0x0101 || gained(old, nac) != 0x0140) {
        printf("status 0000h to 0001h gains %04X, NAC gains %04X\n", gained(old, ready), gained(old, nac));
        return EXIT_FAILURE;
    }
    for (long round = 0; round < rounds; round++) {
        struct health new = random_health(old);
        uint16_t flags = gained(old, new);
        if (flags != expected_flags(old, new)) {
            printf("round %ld: flags %04X, expected %04X\n", round, flags, expected_flags(old, new));
            return EXIT_FAILURE;
        }
        if (flags == 0xFFFF)
            malformed++;
        old = new;
    }
    if (malformed < rounds / 10 || malformed > rounds / 2) {
        printf("malformed reports: %ld of %ld\n", malformed, rounds);
        return EXIT_FAILURE;
    }
    printf("flag rule inputs checked: %ld\n", rounds);
    return EXIT_SUCCESS;
}
