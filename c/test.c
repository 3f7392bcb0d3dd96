/* Calls each export from C, accepted and refused or wrongly used; the first difference ends it with status 1. */
#include "jomukahu.h"

#include <stdio.h>
#include <stdlib.h>
#include <string.h>

static const char smaps[] = "1000-3000 r--p 00000000 08:01 77 /a\n"
                            "Rss: 8 kB\n"
                            "Pss: 4 kB\n"
                            "3000-4000 rw-p 00000000 00:00 0 \n"
                            "Pss: 3 kB\n"
                            "SwapPss: 2 kB\n";

static const char status[] = "Name: a\nState: S (sleeping)\nTgid: 7\nPid: 7\nPPid: 0\nTracerPid: 0\nUid: 0 0 0 0\n"
                             "Gid: 0 0 0 0\nFDSize: 0\nGroups:\nThreads: 3\nSigQ: 0/0\nSigPnd: 0\nShdPnd: 0\n"
                             "SigBlk: 0\nSigIgn: 0\nSigCgt: 0\nCapInh: 0\nCapPrm: 0\nCapEff: 0\n";

static const char limits[] =
    "Max cpu time 1 2 x\nMax file size 1 2 x\nMax data size 1 2 x\nMax stack size 1 2 x\nMax core file size 1 2 x\n"
    "Max resident set 1 2 x\nMax processes 1 2 x\nMax open files 1024 4096 x\nMax locked memory 1 2 x\n"
    "Max address space unlimited 5 x\nMax file locks 1 2 x\nMax pending signals 1 2 x\nMax msgqueue size 1 2 x\n"
    "Max nice priority 1 2\nMax realtime priority 1 2\nMax realtime timeout 1 2 x\n";

/* The text "a" and byte 10, with a clean ending. */
static const uint8_t recording[64] = {2, 1, 'a', 10};

static const uint8_t nothing[1];

static struct jomukahu_place places[JOMUKAHU_PLACES];
static struct jomukahu_place before[JOMUKAHU_PLACES];

static void check(int holds, const char *what, int line) {
    if (!holds) {
        fprintf(stderr, "c/test.c:%d: not so: %s\n", line, what);
        exit(1);
    }
}

#define CHECK(holds) check((holds), #holds, __LINE__)

static int is(struct jomukahu_answer answer, uint32_t number, uint32_t line, uint32_t field) {
    return answer.number == number && answer.line == line && answer.field == field;
}

/* The places are what they were as keep was called. */
static int kept(void) { return memcmp(places, before, sizeof places) == 0; }

static void keep(void) { memcpy(before, places, sizeof places); }

static struct jomukahu_answer measure(const char *text, struct jomukahu_measure *m) {
    return jomukahu_measure(JOMUKAHU_HELD, (const uint8_t *)text, strlen(text), JOMUKAHU_HELD, nothing, 0, m);
}

static struct jomukahu_answer note(int32_t pid, const char *text) {
    return jomukahu_note(places, JOMUKAHU_PLACES, pid, JOMUKAHU_HELD, (const uint8_t *)text, strlen(text),
                         JOMUKAHU_HELD, nothing, 0);
}

static struct jomukahu_answer bound(int32_t pid, const char *text) {
    return jomukahu_bound(places, JOMUKAHU_PLACES, pid, JOMUKAHU_HELD, (const uint8_t *)text, strlen(text),
                          JOMUKAHU_HELD, nothing, 0);
}

static void measures(void) {
    struct jomukahu_measure m;
    memset(&m, 7, sizeof m);
    CHECK(is(measure("Rss: 4 kB\n", &m), 4, 1, 0));
    CHECK(m.mappings == 0 && m.rss == 0 && m.pss == 0 && m.swap_pss == 0);
    CHECK(is(measure(smaps, &m), 0, 0, 0));
    CHECK(m.mappings == 2 && m.rss == 8192 && m.pss == 7168 && m.swap_pss == 2048);
    /* The line of the recording stands behind the six of the text, and has one piece of a mapping line's six. */
    CHECK(is(jomukahu_measure(JOMUKAHU_HELD, (const uint8_t *)smaps, strlen(smaps), JOMUKAHU_RECORDING, recording,
                              sizeof recording, &m),
             5, 7, 0));
    CHECK(is(jomukahu_measure(JOMUKAHU_RECORDING, recording, 63, JOMUKAHU_HELD, nothing, 0, &m), 22, 0, 0));
    CHECK(is(jomukahu_measure(JOMUKAHU_HELD, nothing, 0, 3, nothing, 0, &m), JOMUKAHU_WRONG_USE, 0, 0));
}

static void lists(void) {
    struct jomukahu_measure m;
    struct jomukahu_place job;
    uint64_t used = 7, charge = 7;

    memset(places, 7, sizeof places);
    keep();
    CHECK(is(jomukahu_new(places, 63), JOMUKAHU_WRONG_USE, 0, 0) && kept());
    CHECK(is(jomukahu_new(places, JOMUKAHU_PLACES), 0, 0, 0));
    memset(before, 0, sizeof before);
    CHECK(kept());

    CHECK(is(measure(smaps, &m), 0, 0, 0));
    CHECK(is(jomukahu_admit(10215, places, JOMUKAHU_PLACES, 7, 1000, &m), 18, 0, 0) && kept());
    CHECK(is(jomukahu_admit(10216, places, JOMUKAHU_PLACES, 7, 1000, &m), 0, 0, 0));
    CHECK(is(jomukahu_used(places, JOMUKAHU_PLACES, &used), 0, 0, 0) && used == 10216);
    CHECK(is(jomukahu_used(places, 65, &used), JOMUKAHU_WRONG_USE, 0, 0) && used == 0);

    keep();
    CHECK(is(note(8, status), 16, 0, 0) && kept());
    CHECK(is(note(7, ""), 11, 0, 1) && kept());
    CHECK(is(note(7, status), 0, 0, 0));
    keep();
    CHECK(is(bound(0, limits), 14, 0, 0) && kept());
    CHECK(is(bound(7, "a b\n"), 5, 1, 0) && kept());
    CHECK(is(bound(7, limits), 0, 0, 0));

    CHECK(is(measure("1-2 r 0 0:0 0 \nRss: 3\nPss: 20000\nSwapPss: 5\n", &m), 0, 0, 0));
    keep();
    CHECK(is(jomukahu_remeasure(places, JOMUKAHU_PLACES, 8, &m), 16, 0, 0) && kept());
    CHECK(is(jomukahu_remeasure(places, JOMUKAHU_PLACES, 7, &m), 0, 0, 0));

    CHECK(is(jomukahu_look(places, JOMUKAHU_PLACES, 7, &job, &charge), 0, 0, 0));
    CHECK(job.pid == 7 && job.headroom == 1000 && charge == 21005);
    CHECK(job.mappings == 1 && job.rss == 3 && job.pss == 20000 && job.swap_pss == 5);
    CHECK(job.noted && job.state == 'S' && job.threads == 3 && !job.has_vmrss && job.vmrss == 0);
    CHECK(job.bounded && job.address_space_unlimited && job.address_space == 0);
    CHECK(!job.open_files_unlimited && job.open_files == 1024);
    CHECK(is(jomukahu_look(places, JOMUKAHU_PLACES, 8, &job, &charge), 16, 0, 0));
    CHECK(charge == 0 && job.pid == 0 && job.headroom == 0 && job.noted == 0 && job.open_files == 0);

    keep();
    CHECK(is(jomukahu_release(places, JOMUKAHU_PLACES, -7), 14, 0, 0) && kept());
    places[63].pid = 7;
    keep();
    CHECK(is(jomukahu_release(places, JOMUKAHU_PLACES, 7), JOMUKAHU_WRONG_USE, 0, 0) && kept());
    places[63].pid = 0;
    CHECK(is(jomukahu_release(places, JOMUKAHU_PLACES, 7), 0, 0, 0));
    CHECK(is(jomukahu_used(places, JOMUKAHU_PLACES, &used), 0, 0, 0) && used == 0);
}

static void words(void) {
    uint8_t letters[8];
    memset(letters, '.', sizeof letters);
    CHECK(jomukahu_word(18, letters, 2) == 4 && memcmp(letters, "ov......", 8) == 0);
    CHECK(jomukahu_word(18, letters, sizeof letters) == 4 && memcmp(letters, "over....", 8) == 0);
    CHECK(jomukahu_word(JOMUKAHU_WRONG_USE, letters, sizeof letters) == 0 && memcmp(letters, "over....", 8) == 0);
}

int main(void) {
    measures();
    lists();
    words();
    return 0;
}
