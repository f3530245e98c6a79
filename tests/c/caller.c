/* A caller in C. `caller FOLDER` plays plan.txt and steps.txt of a folder through the library and prints the answer, as the program does. On the
   way it has the plan written back, and checks the header's macros: OPEN_CONTROLLER_OUTPUT and OPEN_CONTROLLER_PLAN_OUTPUT are room for the answer
   and for the plan, OPEN_CONTROLLER_SHORT is told of a buffer that is one byte too short, and OPEN_CONTROLLER_UNSOUND of starts that the behaviours
   do not fit. A buffer into which nothing is to be written is left as it was. First acceptable steps, worked out by hand, are taken apart as
   the header says, and their kinds are OPEN_CONTROLLER_RUN, OPEN_CONTROLLER_ARRIVE and OPEN_CONTROLLER_TIMEOUT; OPEN_CONTROLLER_REFUSED is told
   of a refused text. Numbers of clauses consulted are worked out by hand too; OPEN_CONTROLLER_NOT_AT_RECV is told in every other case.
   `caller FOLDER suggest` prints the number that the library returns for the first acceptable step of the folder, and
   `caller FOLDER consulted PROCESS...` for each process a line with the number that it returns for the clauses consulted. */
#include <stdio.h>
#include <stdlib.h>
#include <string.h>

#include "open_controller.h"

#define UNTOUCHED 0xA5

/* The file's bytes, up to one byte past the limit; none where it cannot be opened. */
static size_t read_text(const char *folder, const char *name, uint8_t *text, size_t size)
{
    char path[4096];
    FILE *file;
    size_t length = 0;

    snprintf(path, sizeof path, "%s/%s", folder, name);
    file = fopen(path, "rb");
    if (file != NULL) {
        length = fread(text, 1, size, file);
        fclose(file);
    }
    return length;
}

static void fail(const char *what)
{
    fprintf(stderr, "caller: %s\n", what);
    exit(1);
}

static void check_untouched(const uint8_t *bytes, size_t length, const char *what)
{
    size_t k;

    for (k = 0; k < length; k++)
        if (bytes[k] != UNTOUCHED)
            fail(what);
}

/* The plan, which is accepted, written back to its very bytes. */
static void check_written_back(const uint8_t *plan, size_t plan_length)
{
    static uint8_t out[OPEN_CONTROLLER_PLAN_OUTPUT];
    size_t length;

    memset(out, UNTOUCHED, sizeof out);
    if (open_controller_write_plan(plan, plan_length, plan, plan_length, out, plan_length - 1) != OPEN_CONTROLLER_SHORT)
        fail("a buffer one byte shorter than the plan is not told as OPEN_CONTROLLER_SHORT");
    check_untouched(out, sizeof out, "a buffer shorter than the plan was written to");
    length = open_controller_write_plan(plan, plan_length, plan, plan_length, out, OPEN_CONTROLLER_PLAN_OUTPUT);
    if (length != plan_length || memcmp(out, plan, plan_length) != 0)
        fail("a plan is not written back to its bytes");
    check_untouched(out + length, sizeof out - length, "bytes behind the plan changed");
    memset(out, UNTOUCHED, sizeof out);
    if (open_controller_write_plan(plan, plan_length, plan, plan_length, out, plan_length) != plan_length || memcmp(out, plan, plan_length) != 0)
        fail("a buffer as long as the plan is not enough");
    check_untouched(out + plan_length, sizeof out - plan_length, "bytes behind the buffer changed");
}

/* One call that is to write nothing, into a buffer that holds every plan and into an empty one. */
static void check_not_written(const char *behaviours, const char *starts, size_t answer, const char *what)
{
    static uint8_t out[OPEN_CONTROLLER_PLAN_OUTPUT];
    const size_t rooms[] = {0, OPEN_CONTROLLER_PLAN_OUTPUT};
    size_t k;

    for (k = 0; k < 2; k++) {
        memset(out, UNTOUCHED, sizeof out);
        if (open_controller_write_plan((const uint8_t *)behaviours, strlen(behaviours), (const uint8_t *)starts, strlen(starts), out, rooms[k])
            != answer)
            fail(what);
        check_untouched(out, sizeof out, "a buffer into which nothing is to be written changed");
    }
}

static void check_turned_down(void)
{
    const char *one = "plan=1\nbehaviours=1\ncode=1\nop=stop,0\nstarts=1\nstart=1,1\n";
    const char *two = "plan=1\nbehaviours=2\ncode=1\nop=stop,0\ncode=1\nop=trap,1\nstarts=2\nstart=1,1\nstart=2,2\n";
    const char *refused = "plan=1\nbehaviours=1\n";

    if (OPEN_CONTROLLER_SHORT != SIZE_MAX || OPEN_CONTROLLER_UNSOUND != SIZE_MAX - 1)
        fail("the two largest lengths are not those that tell of 30 and 31");
    check_not_written(one, two, OPEN_CONTROLLER_UNSOUND, "starts above the behaviours are not told as OPEN_CONTROLLER_UNSOUND");
    check_not_written(refused, one, 0, "behaviours of a refused plan are not told as 0");
    check_not_written(one, refused, 0, "starts of a refused plan are not told as 0");
    check_not_written("", "", 0, "empty texts are not told as 0");
}

/* The sample of document 01. */
static const char sample[] = "plan=1\nbehaviours=2\ncode=3\nop=set,0,p2\nop=set,1,i12\nop=send,0,1\n"
                             "code=2\nop=recv,1\nop=clause,int,0,1,2\nstarts=2\nstart=1,1\nstart=2,2\n";

/* Process 1 waits for an integer, process 2 can always run, and process 16 sends process 1 a message. */
static const char three[] = "plan=1\nbehaviours=3\ncode=2\nop=recv,1\nop=clause,int,0,0,2\ncode=1\nop=jump,0\n"
                            "code=2\nop=set,0,p1\nop=send,0,0\nstarts=3\nstart=1,1\nstart=2,2\nstart=16,3\n";

/* Process 1 waits for a message and may give up. */
static const char patient[] = "plan=1\nbehaviours=1\ncode=3\nop=recv,1\nop=clause,any,0,0,0\nop=after,0\nstarts=1\nstart=1,1\n";

/* Process 1 waits for a message and cannot give up. */
static const char stuck[] = "plan=1\nbehaviours=1\ncode=2\nop=recv,1\nop=clause,any,0,0,0\nstarts=1\nstart=1,1\n";

static size_t suggested(const char *plan, const char *steps)
{
    return open_controller_suggest((const uint8_t *)plan, strlen(plan), (const uint8_t *)steps, strlen(steps));
}

static void check_step(const char *plan, const char *steps, size_t kind, size_t owner, size_t from, const char *what)
{
    size_t answer = suggested(plan, steps);

    if (answer / 65536 != kind || answer / 256 % 256 != owner || answer % 256 != from)
        fail(what);
}

/* Numbers of steps that were worked out by hand, and what is told where there is no step. */
static void check_suggested(void)
{
    if (OPEN_CONTROLLER_REFUSED != SIZE_MAX || OPEN_CONTROLLER_RUN != 0 || OPEN_CONTROLLER_ARRIVE != 1 || OPEN_CONTROLLER_TIMEOUT != 2)
        fail("a macro of open_controller_suggest has another value");
    check_step(sample, "", OPEN_CONTROLLER_RUN, 1, 0, "the sample's first step is not run 1");
    check_step(sample, "run=1\nrun=1\nrun=1\nrun=1\nrun=1\n", OPEN_CONTROLLER_ARRIVE, 2, 1,
               "where the sample's process 1 is gone the first step is not the arrival of its message");
    check_step(sample, "run=1\nrun=1\nrun=1\narrive=2,1\nrun=1\nrun=1\n", OPEN_CONTROLLER_RUN, 2, 0,
               "where the sample's process 1 is gone and its message has arrived the first step is not run 2");
    check_step(three, "run=16\nrun=16\n", OPEN_CONTROLLER_ARRIVE, 1, 16, "an arrival of process 1 is not told before a run of process 2");
    check_step(patient, "", OPEN_CONTROLLER_TIMEOUT, 1, 0, "the first step of a process that may give up is not its timeout");
    if (suggested(stuck, "") != 0 || suggested(stuck, "run=1\n") != 0)
        fail("a node on which every step would be refused is not told as 0");
    if (suggested("plan=1\n", "") != OPEN_CONTROLLER_REFUSED || suggested("", "run=1\n") != OPEN_CONTROLLER_REFUSED)
        fail("a refused plan is not told as OPEN_CONTROLLER_REFUSED");
    if (suggested(sample, "run=1") != OPEN_CONTROLLER_REFUSED || suggested(stuck, "run=\n") != OPEN_CONTROLLER_REFUSED)
        fail("a refused steps text is not told as OPEN_CONTROLLER_REFUSED");
    if (suggested("", "run=1") != OPEN_CONTROLLER_REFUSED)
        fail("two refused texts are not told as OPEN_CONTROLLER_REFUSED");
}

/* Process 1 has two recvs, one of an integer and a3, one of two integers, and a timeout leads from the first to the second; process 16 waits for a
   note or any message; process 2 sends a7 to both. */
static const char settled[] = "plan=1\nbehaviours=3\ncode=7\nop=recv,2\nop=clause,int,0,0,7\nop=clause,a3,0,0,7\nop=after,4\n"
                              "op=recv,2\nop=clause,int,0,0,7\nop=clause,int,0,0,7\n"
                              "code=5\nop=set,0,p1\nop=set,1,a7\nop=send,0,1\nop=set,0,p16\nop=send,0,1\n"
                              "code=3\nop=recv,2\nop=clause,note,0,0,0\nop=clause,any,0,0,0\nstarts=3\nstart=1,1\nstart=2,2\nstart=16,3\n";

static size_t consulted(const char *plan, const char *steps, size_t process)
{
    return open_controller_consulted((const uint8_t *)plan, strlen(plan), (const uint8_t *)steps, strlen(steps), process);
}

/* The searches of the sample and of `settled`, whose messages arrive. */
static void check_consulted(void)
{
    const char *sent = "run=1\nrun=1\nrun=1\narrive=2,1\n", *arrived = "run=2\nrun=2\nrun=2\narrive=1,2\n";
    const char *given_up = "run=2\nrun=2\nrun=2\narrive=1,2\ntimeout=1\n", *refused = "run=2\nrun=2\nrun=2\nrun=3\narrive=1,2\n";
    const char *both = "run=2\nrun=2\nrun=2\nrun=2\nrun=2\narrive=16,2\n";

    if (consulted(sample, "", 2) != 0 || consulted(sample, sent, 2) != 1)
        fail("the sample's process 2 does not consult 0 clauses for no message and 1 for i12");
    if (consulted(settled, arrived, 1) != 2)
        fail("the clauses int and a3 are not both consulted for a7");
    if (consulted(settled, given_up, 1) != 0)
        fail("a clause of two that take integers is consulted for a7");
    if (consulted(settled, refused, 1) != 0)
        fail("a message behind a refused step is searched");
    if (consulted(settled, arrived, 16) != 0 || consulted(settled, both, 16) != 2)
        fail("process 16 does not consult 0 clauses for no message, and note and any for a7");
}

static void check_not_at_recv(const char *plan, const char *steps, size_t process, const char *what)
{
    if (consulted(plan, steps, process) != OPEN_CONTROLLER_NOT_AT_RECV)
        fail(what);
}

/* Every case in which there is no search. */
static void check_not_consulted(void)
{
    if (OPEN_CONTROLLER_NOT_AT_RECV != SIZE_MAX || OPEN_CONTROLLER_NOT_AT_RECV != (size_t)-1)
        fail("OPEN_CONTROLLER_NOT_AT_RECV has another value");
    check_not_at_recv(sample, "", 1, "a process at a set is not told as OPEN_CONTROLLER_NOT_AT_RECV");
    check_not_at_recv(sample, "run=1\nrun=1\nrun=1\n", 1, "a process past its code is not told as OPEN_CONTROLLER_NOT_AT_RECV");
    check_not_at_recv(sample, "run=1\nrun=1\nrun=1\nrun=1\n", 1, "a closing process is not told as OPEN_CONTROLLER_NOT_AT_RECV");
    check_not_at_recv(sample, "run=1\nrun=1\nrun=1\nrun=1\nrun=1\n", 1, "a gone process is not told as OPEN_CONTROLLER_NOT_AT_RECV");
    check_not_at_recv(sample, "", 3, "an unborn process is not told as OPEN_CONTROLLER_NOT_AT_RECV");
    check_not_at_recv(settled, "", 0, "process 0 is not told as OPEN_CONTROLLER_NOT_AT_RECV");
    check_not_at_recv(settled, "", 17, "process 17 is not told as OPEN_CONTROLLER_NOT_AT_RECV");
    check_not_at_recv(settled, "", 257, "process 257 is not told as OPEN_CONTROLLER_NOT_AT_RECV");
    check_not_at_recv(settled, "", SIZE_MAX, "the largest number is not told as OPEN_CONTROLLER_NOT_AT_RECV");
    check_not_at_recv("plan=1\n", "", 1, "a refused plan is not told as OPEN_CONTROLLER_NOT_AT_RECV");
    check_not_at_recv(settled, "run=1", 1, "a refused steps text is not told as OPEN_CONTROLLER_NOT_AT_RECV");
    check_not_at_recv("", "run=1", 1, "two refused texts are not told as OPEN_CONTROLLER_NOT_AT_RECV");
}

/* What is in a folder. */
static uint8_t plan[16385], steps[61441];
static size_t plan_length, steps_length;

static void print_number(size_t number)
{
    if (printf("%zu\n", number) < 0 || fflush(stdout) != 0)
        fail("cannot write");
}

static void print_consulted(const char *word)
{
    char *end;
    unsigned long long process = strtoull(word, &end, 10);

    if (word[0] < '0' || word[0] > '9' || *end != '\0')
        fail("PROCESS is a number");
    print_number(open_controller_consulted(plan, plan_length, steps, steps_length, (size_t)process));
}

/* Plays the folder, checks all that is told on the way and prints the answer. */
static void print_answer(void)
{
    static uint8_t out[OPEN_CONTROLLER_OUTPUT], short_out[OPEN_CONTROLLER_OUTPUT];
    size_t length;

    memset(out, UNTOUCHED, sizeof out);
    length = open_controller_simulate(plan, plan_length, steps, steps_length, out, OPEN_CONTROLLER_OUTPUT);
    if (length == OPEN_CONTROLLER_SHORT || length > sizeof out)
        fail("OPEN_CONTROLLER_OUTPUT bytes do not hold the answer");
    check_untouched(out + length, sizeof out - length, "bytes behind the answer changed");
    memset(short_out, UNTOUCHED, sizeof short_out);
    if (open_controller_simulate(plan, plan_length, steps, steps_length, short_out, length - 1) != OPEN_CONTROLLER_SHORT)
        fail("a buffer that is one byte too short is not told as OPEN_CONTROLLER_SHORT");
    check_untouched(short_out, sizeof short_out, "a buffer that is too short was written to");
    check_written_back(plan, plan_length);
    check_turned_down();
    check_suggested();
    check_consulted();
    check_not_consulted();
    if (fwrite(out, 1, length, stdout) != length || fflush(stdout) != 0)
        fail("cannot write");
}

int main(int count, char **words)
{
    int k;

    if (count < 2)
        fail("usage: caller FOLDER [suggest | consulted PROCESS...]");
    plan_length = read_text(words[1], "plan.txt", plan, sizeof plan);
    steps_length = read_text(words[1], "steps.txt", steps, sizeof steps);
    if (count == 2)
        print_answer();
    else if (count == 3 && strcmp(words[2], "suggest") == 0)
        print_number(open_controller_suggest(plan, plan_length, steps, steps_length));
    else if (count > 3 && strcmp(words[2], "consulted") == 0)
        for (k = 3; k < count; k++)
            print_consulted(words[k]);
    else
        fail("usage: caller FOLDER [suggest | consulted PROCESS...]");
    return 0;
}
