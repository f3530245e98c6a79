/* The Open Controller for C: link libcontroller_c.a (`rt lib` in crates/controller_c writes it to its folder out). */
#ifndef OPEN_CONTROLLER_H
#define OPEN_CONTROLLER_H

#include <stddef.h>
#include <stdint.h>

/* Told where `out` is shorter than what is to be written (refusal 30); `out` is then unchanged. */
#define OPEN_CONTROLLER_SHORT SIZE_MAX

/* Enough for every answer, whatever the texts are (theorem program-short). */
#define OPEN_CONTROLLER_OUTPUT 45056

/* Told where no accepted plan text holds what is to be written (refusal 31); `out` is then unchanged. */
#define OPEN_CONTROLLER_UNSOUND (SIZE_MAX - 1)

/* Enough for every plan that is written, whatever the texts are (theorem short: at most 7,950 bytes). */
#define OPEN_CONTROLLER_PLAN_OUTPUT 8192

/* Told by open_controller_suggest where one of the texts is refused. */
#define OPEN_CONTROLLER_REFUSED SIZE_MAX

/* The kinds of a step in the number that open_controller_suggest returns. */
#define OPEN_CONTROLLER_RUN 0
#define OPEN_CONTROLLER_ARRIVE 1
#define OPEN_CONTROLLER_TIMEOUT 2

/* Told by open_controller_consulted where one of the texts is refused or the process is not live at a recv. */
#define OPEN_CONTROLLER_NOT_AT_RECV SIZE_MAX

/*
 * Plays the steps text on the plan text and writes what the program prints into the first bytes of `out`: `load=number,line` where the
 * plan is refused, else `steps=number,line` where the steps text is, else `accepted=`, `refused=` and the listing.
 * Returns the length, or OPEN_CONTROLLER_SHORT. Any bytes may be given; a pointer must be valid for its length and not null, and `out` must not
 * overlap the texts. It needs less than 512 KB of stack.
 */
size_t open_controller_simulate(const uint8_t *plan, size_t plan_length, const uint8_t *steps, size_t steps_length, uint8_t *out,
                                size_t out_length);

/*
 * Loads two plan texts and writes the behaviours of the first with the starts of the second as plan text into the first bytes of `out`; the
 * bytes behind stay. Given one accepted text for both, it writes that text's very bytes.
 * Returns the length; a buffer of that length is enough. Where nothing is written `out` is unchanged, and it returns 0 where one of the texts
 * is refused, else OPEN_CONTROLLER_UNSOUND where a start of the second names a behaviour that the first does not have, else
 * OPEN_CONTROLLER_SHORT. Any bytes may be given; a pointer must be valid for its length and not null, and `out` must not overlap the texts,
 * which may be one and the same. It needs less than 256 KB of stack.
 */
size_t open_controller_write_plan(const uint8_t *behaviours_plan, size_t behaviours_plan_length, const uint8_t *starts_plan,
                                  size_t starts_plan_length, uint8_t *out, size_t out_length);

/*
 * Plays the steps text on the plan text, until a step is refused or to the end, and tells the first step that would be accepted then: lowest
 * owner, for one owner its run, then its timeout, then its arrivals by rising sender.
 * Returns kind * 65536 + owner * 256 + from, of which the parts are
 *     kind  = answer / 65536        OPEN_CONTROLLER_RUN, OPEN_CONTROLLER_ARRIVE or OPEN_CONTROLLER_TIMEOUT
 *     owner = answer / 256 % 256    the process that the step is of, 1 to 16
 *     from  = answer % 256          the sender of an arrival, 1 to 16; 0 for a run or a timeout, which have none
 * Two answers are no step, and are to be looked for first: OPEN_CONTROLLER_REFUSED where one of the texts is refused, and 0 where every step would
 * be refused. A step is never told as 0, since its owner is at least 1. Any bytes may be given; a pointer must be valid for its length and not
 * null. It needs less than 256 KB of stack.
 */
size_t open_controller_suggest(const uint8_t *plan, size_t plan_length, const uint8_t *steps, size_t steps_length);

/*
 * Plays the steps text on the plan text, until a step is refused or to the end, and tells of a process that is then live at a recv how many
 * clauses a search of its mailbox consults. The search first notes which kinds of message (int, atom, pid, note, down) its clauses can take at
 * all: any takes every kind, a clause by kind that kind, an exact value the kind of the value. Noting is not consulting. For each message up to
 * and with the one that fits, or for all if none fits, it then consults
 *     no clause                                         where no clause can take the message's kind
 *     the clauses in order up to the first that fits    else, that one counted, and all of them where none fits
 * Returns their number, which is 0 to 128, and OPEN_CONTROLLER_NOT_AT_RECV in every other case: one of the texts is refused, `process` is not 1
 * to 16, or the process is unborn, closing, gone, live at another op or live past the end of its code. It writes nothing. Any bytes may be
 * given; a pointer must be valid for its length and not null. It needs less than 256 KB of stack.
 */
size_t open_controller_consulted(const uint8_t *plan, size_t plan_length, const uint8_t *steps, size_t steps_length, size_t process);

#endif
