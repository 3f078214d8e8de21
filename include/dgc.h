/* dgc.h: the checker as a static library, libdgc.a, for C11 and C++11. docs/LIBRARY.md says what its answers promise.

   A text is bytes with a length, with no byte 0 at its end. For an empty text, or no room, the length is 0, and the pointer may be NULL. No
   other pointer may be NULL. A call copies as much of its text as fits into `room`, and tells how long the whole text is. Where that is more
   than the room, give more room and call again: a call reads nothing but its arguments, so it answers the same, but for dgc_apply, which
   changes its session.

   `wide` says whether the wide forms may stand in the module, as `--forms wide` does.

   Any thread may call, and several may at once. A session is used by one call at a time, on the thread that opened it. No call is made from a
   signal handler, or in the child of a fork of a process with threads. The parts that a call gets do not overlap. */
#ifndef DGC_H
#define DGC_H

#include <stdbool.h>
#include <stddef.h>
#include <stdint.h>

#ifdef __cplusplus
extern "C" {
#endif

/* The interface that this header describes. A caller that was compiled with it may be linked with a library for which dgc_interface() is the
   same. */
#define DGC_INTERFACE 1

/* What an answer's status says. They are those of the program. */
enum {
    DGC_YES = 0,        /* the module is accepted, or a certificate was made */
    DGC_NO = 1,         /* the module is not accepted, or no certificate was made */
    DGC_UNREADABLE = 2, /* a text is not read, or the module has no layouts */
    DGC_NO_MEMORY = 3   /* memory was refused: nothing is known */
};

/* The number of a function, a block and an instruction where none is named. */
#define DGC_NOWHERE SIZE_MAX

/* A code, and where it is told of. */
typedef struct {
    uint32_t letter;    /* 'K' of K6, or 0 where there is no code */
    uint32_t number;    /* 6 of K6 */
    size_t function;    /* of the refused instruction: of the functions that the module defines, from 0 */
    size_t block;       /* of the blocks of that function, from 0 */
    size_t instruction; /* of the phis, instructions and the end of that block, from 0 */
    size_t line;        /* in the text that is at fault, from 1; 0 where it is not known */
    size_t column;      /* in bytes, from 1; 0 where it is not known */
} dgc_place;

/* What a call tells besides its text. */
typedef struct {
    uint32_t status;
    uint32_t unused;
    dgc_place place;
    uint64_t rechecked; /* how many functions the last edit of a session concerned that was accepted */
    size_t length;      /* of the text */
} dgc_answer;

/* The address of a session. */
typedef struct {
    void *at;
} dgc_session;

/* The number of the library's interface, DGC_INTERFACE. */
uint32_t dgc_interface(void);

/* The version, as `dgc 0.1.0, proved`. That of an archive that was not proved says so. Returns its length. */
size_t dgc_version(uint8_t *room, size_t room_length);

/* Checks a module against a certificate. The text is what `dgc check` prints, on either output. Returns answer->status, which is
   DGC_YES only where the module is accepted. */
uint32_t dgc_check(bool wide, const uint8_t *module, size_t module_length, const uint8_t *certificate, size_t certificate_length,
                   uint8_t *room, size_t room_length, dgc_answer *answer);

/* Makes a certificate of a module. The shapes count where the module writes `ptr`; with typed pointers they have the length 0. The text is
   what `dgc make` prints: the certificate where the status is DGC_YES. Where it is DGC_NO, the place is that of the first instruction that is
   refused with the boldest certificate that was tried. */
uint32_t dgc_make(bool wide, const uint8_t *module, size_t module_length, const uint8_t *shapes, size_t shapes_length,
                  uint8_t *room, size_t room_length, dgc_answer *answer);

/* Tells why a module is not accepted, as `dgc check --explain always` does, or why no certificate is made, as `dgc make --explain always`
   does. Returns how long the text is: 0 where there is nothing to explain. */
size_t dgc_explain(bool wide, const uint8_t *module, size_t module_length, const uint8_t *certificate, size_t certificate_length,
                   uint8_t *room, size_t room_length);
size_t dgc_explain_make(bool wide, const uint8_t *module, size_t module_length, const uint8_t *shapes, size_t shapes_length,
                        uint8_t *room, size_t room_length);

/* Begins a session, in which functions of a module are replaced one at a time, and only what an edit concerns is checked again. The text is
   the verdict, as `dgc recheck` prints it. Where the status is DGC_YES or DGC_NO, the session is written to *session, and dgc_close has to end
   it. Else *session stays as it is. */
uint32_t dgc_open(bool wide, const uint8_t *module, size_t module_length, const uint8_t *certificate, size_t certificate_length,
                  uint8_t *room, size_t room_length, dgc_answer *answer, dgc_session *session);

/* Applies edits (docs/EDITS.md) to a session. The text has the line of each, as `dgc recheck` prints it, and the status is that of the
   verdict after the last one. An edit that is refused leaves the session as it was. Where memory is refused, the edits before some place
   have been applied. The session that it takes is used up. It goes on as the one that is written to *moved, whatever the status is; `moved`
   may be the place from which the session was taken. */
uint32_t dgc_apply(dgc_session session, const uint8_t *edits, size_t edits_length,
                   uint8_t *room, size_t room_length, dgc_answer *answer, dgc_session *moved);

/* Ends a session, and frees its memory. Nothing is done where session.at is NULL. */
void dgc_close(dgc_session session);

#ifdef __cplusplus
}
#endif

#endif
