/* Lists the script on standard input, as a program in C: it replays it twice, and compares the two. */
#include "molefleece.h"

#include <errno.h>
#include <stdbool.h>
#include <stdio.h>
#include <stdlib.h>
#include <string.h>

enum {
    SCRIPT_MOST = 8192,
    USUAL_LENGTH = 8192,
    MEMORIES = 5,
    LISTING = MEMORIES,
    BUFFERS = MEMORIES + 1
};

enum status { WHOLE = 0, CUT = 1, FAILED = 2 };

/* What a listing is filled with before each of the two replays. */
static const uint8_t FIRST_FILL = 0xA5;
static const uint8_t SECOND_FILL = 0x5A;

struct buffer {
    uint8_t *bytes;
    size_t length;
};

static int failed(const char *why)
{
    fprintf(stderr, "list_script: %s\n", why);
    return FAILED;
}

/* A block of the heap of just this length, so that a sanitizer sees the byte behind it; of 0 bytes, a block of 1. */
static bool allocate(struct buffer *buffer, size_t length)
{
    buffer->bytes = malloc(length == 0 ? 1 : length);
    buffer->length = length;
    return buffer->bytes != NULL;
}

static bool read_length(const char *text, size_t *length)
{
    char *end;
    errno = 0;
    unsigned long long number = strtoull(text, &end, 10);
    if (text[0] < '0' || text[0] > '9' || *end != '\0' || errno != 0 || number > PTRDIFF_MAX)
        return false;
    *length = (size_t)number;
    return true;
}

/* The five memories and the listing, of the lengths that the arguments name, or of the usual one. */
static bool allocate_all(struct buffer buffers[BUFFERS], int count, char **lengths)
{
    for (int i = 0; i < BUFFERS; i++) {
        size_t length = USUAL_LENGTH;
        if (count > 0 && !read_length(lengths[i], &length))
            return false;
        if (!allocate(&buffers[i], length))
            return false;
        memset(buffers[i].bytes, 0, length);
    }
    return true;
}

static int64_t replay(struct buffer script, struct buffer buffers[BUFFERS], uint8_t fill)
{
    struct buffer listing = buffers[LISTING];
    memset(listing.bytes, fill, listing.length);
    return molefleece_replay(script.bytes, script.length,
                             buffers[0].bytes, buffers[0].length,
                             buffers[1].bytes, buffers[1].length,
                             buffers[2].bytes, buffers[2].length,
                             buffers[3].bytes, buffers[3].length,
                             buffers[4].bytes, buffers[4].length,
                             listing.bytes, listing.length);
}

static size_t written(int64_t answer)
{
    return (size_t)(answer < 0 ? -1 - answer : answer);
}

/* Whether the listing has room for as many bytes as the answer says, and its bytes behind them are the fill. */
static bool rest_is(struct buffer listing, int64_t answer, uint8_t fill)
{
    if (written(answer) > listing.length)
        return false;
    for (size_t i = written(answer); i < listing.length; i++)
        if (listing.bytes[i] != fill)
            return false;
    return true;
}

static size_t length_of_memories(const struct buffer buffers[BUFFERS])
{
    size_t total = 0;
    for (int i = 0; i < MEMORIES; i++)
        total += buffers[i].length;
    return total;
}

/* All bytes of the memories, one behind the other; NULL where there is no room for them. */
static uint8_t *copy_memories(const struct buffer buffers[BUFFERS])
{
    uint8_t *copy = malloc(length_of_memories(buffers) + 1);
    uint8_t *next = copy;
    for (int i = 0; copy != NULL && i < MEMORIES; i++) {
        memcpy(next, buffers[i].bytes, buffers[i].length);
        next += buffers[i].length;
    }
    return copy;
}

static bool memories_are(const uint8_t *copy, const struct buffer buffers[BUFFERS])
{
    for (int i = 0; i < MEMORIES; i++) {
        if (memcmp(copy, buffers[i].bytes, buffers[i].length) != 0)
            return false;
        copy += buffers[i].length;
    }
    return true;
}

/* The second replay, on the memories as the first one left them: it has to come to the same. */
static int replay_again(struct buffer script, struct buffer buffers[BUFFERS], int64_t answer)
{
    struct buffer listing = buffers[LISTING];
    struct buffer first;
    if (!allocate(&first, listing.length))
        return failed("no memory for a copy of the listing");
    memcpy(first.bytes, listing.bytes, listing.length);
    uint8_t *memories = copy_memories(buffers);
    const char *why = NULL;
    if (memories == NULL)
        why = "no memory for a copy of the memories";
    else if (replay(script, buffers, SECOND_FILL) != answer)
        why = "the second answer is another";
    else if (memcmp(first.bytes, listing.bytes, written(answer)) != 0)
        why = "the second listing is another";
    else if (!rest_is(listing, answer, SECOND_FILL))
        why = "the second replay changed bytes behind its listing";
    else if (!memories_are(memories, buffers))
        why = "the second replay left other memories";
    free(memories);
    free(first.bytes);
    return why == NULL ? WHOLE : failed(why);
}

static int list(struct buffer script, struct buffer buffers[BUFFERS])
{
    struct buffer listing = buffers[LISTING];
    int64_t answer = replay(script, buffers, FIRST_FILL);
    if (!rest_is(listing, answer, FIRST_FILL))
        return failed("the first answer is past the room, or bytes behind the listing changed");
    if (replay_again(script, buffers, answer) != WHOLE)
        return FAILED;
    if (fwrite(listing.bytes, 1, written(answer), stdout) != written(answer) || fflush(stdout) != 0)
        return failed("the listing could not be written");
    if (answer < 0) {
        fprintf(stderr, "list_script: the next line did not fit behind %zu bytes\n", written(answer));
        return CUT;
    }
    return WHOLE;
}

/* The first bytes of standard input, in a block of just as many. */
static bool read_script(struct buffer *script)
{
    static uint8_t input[SCRIPT_MOST];
    size_t length = fread(input, 1, sizeof input, stdin);
    if (ferror(stdin) || !allocate(script, length))
        return false;
    memcpy(script->bytes, input, length);
    return true;
}

static void release_all(struct buffer buffers[BUFFERS])
{
    for (int i = 0; i < BUFFERS; i++)
        free(buffers[i].bytes);
}

int main(int argc, char **argv)
{
    struct buffer script = {NULL, 0};
    struct buffer buffers[BUFFERS] = {{NULL, 0}};
    int status;
    if (argc != 1 && argc != 1 + BUFFERS)
        return failed("give no lengths, or six: of the memories a, b, c, d, parity, and of the listing");
    if (!read_script(&script))
        status = failed("the script could not be read");
    else if (!allocate_all(buffers, argc - 1, argv + 1))
        status = failed("a length is no number, or there is no memory");
    else
        status = list(script, buffers);
    release_all(buffers);
    free(script.bytes);
    return status;
}
