/*
 * The sheet program for machines without Rattle: answers the sheet on standard input, on standard output.
 *
 *     lenthuc < SHEET
 *
 * The answer is lenthuc_answer_sheet's, which is proved. Reading and writing, which are here, are tested. The exit status is
 * 0 where the answer is written whole; else 1, and standard error says why. Refused lines are answers.
 */
#include "lenthuc.h"

#include <errno.h>
#include <stdio.h>
#include <unistd.h>

/* One byte over the limit is enough to refuse a sheet. */
static uint8_t sheet[LENTHUC_SHEET_LIMIT + 1];
static uint8_t answer[LENTHUC_SHEET_ROOM];

static int fails(const char *why)
{
    fprintf(stderr, "lenthuc: %s\n", why);
    return 1;
}

/* Reads until the end or until there is no room. Gives how much was read, or -1. */
static ssize_t read_all(uint8_t *to, size_t room)
{
    size_t n = 0;
    while (n < room) {
        ssize_t more = read(STDIN_FILENO, to + n, room - n);
        if (more == 0) {
            break;
        }
        if (more > 0) {
            n += (size_t)more;
        } else if (errno != EINTR) {
            return -1;
        }
    }
    return (ssize_t)n;
}

/* Writes all. Gives 0, or -1. Some disks say at the closing that they are full. */
static int write_all(const uint8_t *from, size_t length)
{
    size_t n = 0;
    while (n < length) {
        ssize_t more = write(STDOUT_FILENO, from + n, length - n);
        if (more >= 0) {
            n += (size_t)more;
        } else if (errno != EINTR) {
            return -1;
        }
    }
    return close(STDOUT_FILENO);
}

int main(int words, char **word)
{
    ssize_t length;
    (void)word;
    if (words != 1) {
        return fails("usage: lenthuc < SHEET");
    }
    length = read_all(sheet, sizeof sheet);
    if (length < 0) {
        return fails("the sheet could not be read to its end");
    }
    if (write_all(answer, lenthuc_answer_sheet(sheet, (size_t)length, answer, sizeof answer)) < 0) {
        return fails("the answers could not be written");
    }
    return 0;
}
