/* A packing list for memory: which jobs may share a Linux machine. These are the exports of the static library, which
   `rt lib` in crates/capi builds as crates/capi/out/libcapi.a; docs/SMAPS.md, docs/PACKING.md and docs/REFUSALS.md say
   what they answer.

   A caller owes this: each pointer is to as many cells as the length behind it says, or to one struct or number where
   there is no length; none is null, not even that of an empty text; and what a call writes doesn't overlap what it
   reads. Nothing else is asked: wrong lengths, wrong forms and cells that are no list are answered 255. The library
   allocates nothing, keeps no pointer and has no state of its own: a list is the caller's cells. */
#ifndef JOMUKAHU_H
#define JOMUKAHU_H

#include <stddef.h>
#include <stdint.h>

#ifdef __cplusplus
extern "C" {
#endif

/* The cells of a list. */
#define JOMUKAHU_PLACES 64

/* How the bytes of a text are read: as they stand, or as a recording of records of 64 bytes. */
#define JOMUKAHU_HELD 1
#define JOMUKAHU_RECORDING 2

/* The number of a wrong use: cells that are no list, a form that is neither of the two, a wrong length. */
#define JOMUKAHU_WRONG_USE 255

/* What a call answers: 0 where it was accepted; 1 to 22 for a refusal, with its line and field or 0; or 255. */
struct jomukahu_answer {
    uint32_t number;
    uint32_t line;
    uint32_t field;
};

/* A measure, totals in bytes. Charge only what jomukahu_measure wrote, and each measure once: in C nothing else sees to
   it. */
struct jomukahu_measure {
    uint32_t mappings;
    uint64_t rss;
    uint64_t pss;
    uint64_t swap_pss;
};

/* What a list keeps of a job. Where pid is 0 the place is free, and nothing else of it is looked at. Cells are a list
   where the pids of the others are at least 1 and no two the same, each charge (pss, swap_pss and headroom together) is
   at most 2 to the 56th, and each state that is looked at is a letter of docs/PACKING.md. */
struct jomukahu_place {
    int32_t pid;
    uint32_t mappings;
    uint64_t headroom;
    uint64_t rss;
    uint64_t pss;
    uint64_t swap_pss;
    uint32_t noted; /* not 0: state, threads and vmrss are what jomukahu_note kept */
    uint32_t state; /* its letter */
    uint64_t threads;
    uint32_t has_vmrss;
    uint32_t bounded; /* not 0: the next four are what jomukahu_bound kept */
    uint64_t vmrss;   /* the figure of the text, which is in kB */
    uint32_t address_space_unlimited;
    uint32_t open_files_unlimited;
    uint64_t address_space;
    uint64_t open_files;
};

/* Measures a text. A text is two parts, each with its form, joined; an empty second of JOMUKAHU_HELD adds nothing. The
   measure is all zeros where the answer is not 0. */
struct jomukahu_answer jomukahu_measure(uint32_t first_form, const uint8_t *first, size_t first_length,
                                        uint32_t second_form, const uint8_t *second, size_t second_length,
                                        struct jomukahu_measure *measure);

/* Makes the cells a list without jobs. In this call and all that follow, length is that of places, and has to be 64; the
   cells are written only where the answer is 0, and then what nothing is kept in is zeros. */
struct jomukahu_answer jomukahu_new(struct jomukahu_place *places, size_t length);

/* The sum of the charges; 0 where the answer is not 0. */
struct jomukahu_answer jomukahu_used(const struct jomukahu_place *places, size_t length, uint64_t *used);

/* Lets a job in, charged for the measure and the headroom, where all charges then keep the limit. */
struct jomukahu_answer jomukahu_admit(uint64_t limit, struct jomukahu_place *places, size_t length, int32_t pid,
                                      uint64_t headroom, const struct jomukahu_measure *measure);

/* Charges a job for this measure instead; no limit is tested. */
struct jomukahu_answer jomukahu_remeasure(struct jomukahu_place *places, size_t length, int32_t pid,
                                          const struct jomukahu_measure *measure);

/* Keeps what a status text says of a job. */
struct jomukahu_answer jomukahu_note(struct jomukahu_place *places, size_t length, int32_t pid, uint32_t first_form,
                                     const uint8_t *first, size_t first_length, uint32_t second_form,
                                     const uint8_t *second, size_t second_length);

/* Keeps what a limits text says of a job. */
struct jomukahu_answer jomukahu_bound(struct jomukahu_place *places, size_t length, int32_t pid, uint32_t first_form,
                                      const uint8_t *first, size_t first_length, uint32_t second_form,
                                      const uint8_t *second, size_t second_length);

/* Frees the place of a job. */
struct jomukahu_answer jomukahu_release(struct jomukahu_place *places, size_t length, int32_t pid);

/* What is kept of a job, and its charge; zeros where the answer is not 0. */
struct jomukahu_answer jomukahu_look(const struct jomukahu_place *places, size_t length, int32_t pid,
                                     struct jomukahu_place *job, uint64_t *charge);

/* Writes the word of a refusal's number, as much of it as there is room for and without a zero behind it; answers the
   length of the whole word, or 0 for a number that is no refusal's. */
size_t jomukahu_word(uint32_t number, uint8_t *letters, size_t length);

#ifdef __cplusplus
}
#endif

#endif
