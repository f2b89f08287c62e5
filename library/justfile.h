/* Formats justfiles. The caller owns all memory, before and after a call; nothing is kept between calls, so that
   several threads may call at once. */
#ifndef JUSTFILE_H
#define JUSTFILE_H

#include <stddef.h>
#include <stdint.h>

#ifdef __cplusplus
extern "C" {
#endif

struct justfile_answer {
    uint32_t status; /* 0: the answer is the formatted text. 2: the lines that tell why the text has none. 3: the line
                        that tells that the text isn't UTF-8, or that memory or numbers ran out. */
    uint32_t fits;   /* 1: the room begins with the answer. 0: it is too small, and is as it was. */
    size_t length;   /* The bytes of the answer, also if it doesn't fit. No zero follows them. */
    size_t offset;   /* The place of the error's token: the bytes of the text before it, */
    size_t width;    /* its own bytes, */
    size_t line;     /* its line, from 0, */
    size_t column;   /* and the bytes on that line before it. All are 0 if no token is told. */
};

/* Formats `length` bytes into a room of `room_length` bytes. If the answer doesn't fit, call again with a room of
   `answer->length` bytes; most formatted texts fit into 2 * length + 1024. Nothing checks what the caller owes: no
   pointer is null, also where a length is 0; the text and the room have their lengths; and the text, the room and
   the answer don't overlap. */
void justfile_format(const uint8_t *text, size_t length, uint8_t *room, size_t room_length,
                     struct justfile_answer *answer);

#ifdef __cplusplus
}
#endif

#endif
