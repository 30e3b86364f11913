/* What the programs that try the library share: a test that says what failed, and the replies of a gateway. */
#ifndef CHECK_H
#define CHECK_H

#include "ngt1.h"
#include <stdarg.h>
#include <stdio.h>
#include <string.h>

static int failed = 0; /* how often */

/* Says what is not as expected, the first 20 times. */
static inline void fail(const char *format, ...)
{
    va_list values;
    if (failed++ < 20) {
        va_start(values, format);
        printf("not as expected: ");
        vprintf(format, values);
        printf("\n");
        va_end(values);
    }
}

static inline void expect(int ok, const char *what)
{
    if (!ok)
        fail("%s", what);
}

/* The exit status. */
static inline int ended(void)
{
    if (failed > 20)
        printf("and %d more\n", failed - 20);
    return failed > 0;
}

/* The payload of a reply: its byte, its sequence, zeros for model and serial, the error, at most 243 bytes of data. Answers its length. */
static inline size_t reply(uint8_t payload[255], uint8_t bem, uint8_t sequence, int32_t error, const uint8_t *data, size_t len)
{
    uint32_t bits = (uint32_t)error;
    size_t i;
    memset(payload, 0, 12);
    payload[0] = bem;
    payload[1] = sequence;
    for (i = 0; i < 4; i++)
        payload[8 + i] = (uint8_t)(bits >> 8 * i);
    if (len > 0)
        memcpy(payload + 12, data, len);
    return 12 + len;
}

#endif
