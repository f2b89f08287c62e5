/* Formats standard input: the formatted text goes to standard output, an error to standard error. The status is that
   of justfmt. Build it with: cc example.c libjustfile.a -o example */
#include "justfile.h"

#include <stdio.h>
#include <stdlib.h>

/* Reads all of a stream. Ends the program if there is no memory. */
static uint8_t *read_all(FILE *stream, size_t *length)
{
    size_t size = 65536;
    uint8_t *text = malloc(size);
    *length = 0;
    while (text) {
        size_t count = fread(text + *length, 1, size - *length, stream);
        *length += count;
        if (count == 0)
            return text;
        if (*length == size)
            text = realloc(text, size *= 2);
    }
    fputs("error: out of memory\n", stderr);
    exit(3);
}

int main(void)
{
    size_t length;
    uint8_t *text = read_all(stdin, &length);
    size_t size = 2 * length + 1024;
    struct justfile_answer answer = {0};
    uint8_t *room = NULL;
    do {
        free(room);
        room = malloc(size);
        if (!room) {
            fputs("error: out of memory\n", stderr);
            return 3;
        }
        justfile_format(text, length, room, size, &answer);
        size = answer.length;
    } while (!answer.fits);
    FILE *stream = answer.status == 0 ? stdout : stderr;
    int written = fwrite(room, 1, answer.length, stream) == answer.length && fflush(stream) == 0;
    free(room);
    free(text);
    return written ? (int)answer.status : 3;
}
