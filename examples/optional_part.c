/* An optional part is gone through, precedence found in it, and the part written again from a list of its parameters. */
#include <stdio.h>
#include <string.h>

#include "naustvri.h"

static const uint8_t part[] = {
    10, 7, 0x84, 0x13, 0x64, 0x18, 0x32, 0x54, 0x06, /* calling party number */
    57, 2, 0x3a, 0xc0,                               /* what to do with name 58 where it is not known */
    NAUSTVRI_NAME_PRECEDENCE, 6, 0x43, 0x04, 0x60, 0x00, 0x00, 0x01,
    NAUSTVRI_NAME_END
};

/* Tells whether a number is a refusal, and prints it if so. */
static int refused(unsigned number)
{
    if (number == NAUSTVRI_DONE)
        return 0;
    printf("refused by %u: %s\n", number, naustvri_number_meaning(number));
    return 1;
}

/* Puts one parameter more into a list, and gives the place after it. */
static size_t put(uint8_t *list, size_t at, uint8_t name, const uint8_t *contents, size_t count)
{
    list[at + NAUSTVRI_LISTED_NAME] = name;
    list[at + NAUSTVRI_LISTED_LENGTH] = (uint8_t)(count % 256);
    list[at + NAUSTVRI_LISTED_LENGTH + 1] = (uint8_t)(count / 256);
    memcpy(list + at + NAUSTVRI_LISTED_CONTENTS, contents, count);
    return at + NAUSTVRI_LISTED_CONTENTS + count;
}

int main(void)
{
    uint8_t list[2 * sizeof part], buffer[sizeof part]; /* a parameter has one octet more in a list than in a part */
    size_t place, precedence = 0, end = 0;
    struct naustvri_parameter p;
    if (naustvri_version() != NAUSTVRI_VERSION)
        return 1; /* this header is not the archive's */

    /* The walk: the end has name 0, and so has a refusal. */
    for (place = 0; (p = naustvri_next_parameter(part, sizeof part, place)).name != NAUSTVRI_NAME_END; place = p.next) {
        printf("place %zu: name %u, %u octets at %zu\n", place, p.name, p.length, p.start);
        if (p.name == NAUSTVRI_NAME_PRECEDENCE)
            precedence = end + NAUSTVRI_LISTED_CONTENTS;
        end = put(list, end, p.name, part + p.start, p.length);
    }
    if (refused(p.number))
        return 1;
    printf("place %zu: the end\n", place);

    struct naustvri_found_precedence found = naustvri_find_precedence(part, sizeof part);
    if (refused(found.number))
        return 1;
    if (found.found) {
        printf("precedence at %zu: %s, LFB %s, service domain %u\n", found.start,
               naustvri_level_meaning(found.value.level), naustvri_lfb_meaning(found.value.lfb), found.value.service);
        list[precedence] = 0xc3; /* in place of 43: the spare bit 8, which the writer clears */
    }

    struct naustvri_written_part written = naustvri_write_optional(buffer, sizeof buffer, list, end);
    if (refused(written.number))
        return 1;
    printf("written, %zu octets:", written.end);
    for (size_t i = 0; i < written.end; i++)
        printf(" %02x", buffer[i]);
    printf("\n");

    printf("without its end: ");
    refused(naustvri_find_precedence(part, sizeof part - 1).number);
    return 0;
}
