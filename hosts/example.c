/* A host in C: it checks the sheet of a triangle, runs an agreement on a floor, and runs the same agreement by two
 * single ends that are driven in step. Site 0 opens with 0, site 1 with 1, and site 2 is rogue: in the first round it
 * says that it holds 1, and later nothing. */
#include "rolgevin.h"

#include <stdio.h>
#include <string.h>

enum { SITES = 3, SOUND = 2, PHASES = 4, TURNS = PHASES * (SITES - 1) };

static const uint32_t SHEET[] = {
    0x80000031, 0x90000001, 0x90000002, 0x9000000A, 0xA4080000, 0xA4100000, 0xA4400000, 0xA4500000,
    0xA4800000, 0xA4880000, 0xB4400000, 0xB4800000, 0xB4080000, 0xB4880000, 0xB4100000, 0xB4500000,
};
static const size_t SHEET_LEN = sizeof SHEET / sizeof *SHEET;

/* What the rogue puts in round 1: the flood word of the empty path with bit 1. */
static const uint32_t LIE = 0x10000001;

/* A list of calls, to which the host appends, and room for their answers. */
struct calls {
  uint32_t words[3 * 64];
  uint32_t answers[2 * 64];
  size_t count;
};

static void call(struct calls *list, uint32_t code, uint32_t site, uint32_t word) {
  uint32_t *next = list->words + 3 * list->count;
  next[0] = code;
  next[1] = site;
  next[2] = word;
  list->count++;
}

static uint32_t run(struct calls *list) {
  return rolgevin_run(SHEET, SHEET_LEN, 0x4, 0x2, list->words, 3 * list->count, list->answers, 2 * list->count);
}

/* Asks two sites for a bit, and runs the list again. */
static void ask(struct calls *list, uint32_t code, const char *what) {
  call(list, code, 0, 0);
  call(list, code, 1, 0);
  uint32_t number = run(list);
  const uint32_t *last = list->answers + 2 * (list->count - 2);
  printf("%s: %u, site 0 %u %u, site 1 %u %u\n", what, number, last[0], last[1], last[2], last[3]);
}

static void by_floor(void) {
  struct calls list = {.count = 0};
  call(&list, ROLGEVIN_TRANSMIT, 2, LIE);
  for (int turn = 1; turn <= TURNS; turn++) {
    call(&list, ROLGEVIN_SPEAK, 0, 0);
    call(&list, ROLGEVIN_SPEAK, 1, 0);
    call(&list, ROLGEVIN_TURN, 0, 0);
    if (turn == 2) ask(&list, ROLGEVIN_HELD, "held after turn 2");
    if (turn == TURNS - 1) ask(&list, ROLGEVIN_DECISION, "decision after turn 7");
  }
  ask(&list, ROLGEVIN_DECISION, "decision after turn 8");
  call(&list, 7, 0, 0);
  run(&list);
  printf("call 7: %u %u\n", list.answers[2 * (list.count - 1)], list.answers[2 * (list.count - 1) + 1]);
}

/* One site's end: its state and its notebook, which only it is handed. */
struct end {
  uint32_t state[ROLGEVIN_STATE_WORDS];
  uint32_t notebook[ROLGEVIN_NOTEBOOK_WORDS];
};

/* Pairs of site and word, as all sites hear them in a round. */
struct air {
  uint32_t pairs[2 * SITES * (ROLGEVIN_SPOKEN_WORDS - 1)];
  size_t count;
};

static void put(struct air *air, uint32_t site, uint32_t word) {
  air->pairs[2 * air->count] = site;
  air->pairs[2 * air->count + 1] = word;
  air->count++;
}

/* Puts what an end owes on the air. */
static uint32_t speak(const struct end *end, uint32_t site, struct air *air) {
  uint32_t words[ROLGEVIN_SPOKEN_WORDS];
  uint32_t number = rolgevin_end_speak(SHEET, SHEET_LEN, end->state, ROLGEVIN_STATE_WORDS, end->notebook,
                                       ROLGEVIN_NOTEBOOK_WORDS, words, ROLGEVIN_SPOKEN_WORDS);
  for (uint32_t k = 0; number == 0 && k < words[0]; k++) put(air, site, words[1 + k]);
  return number;
}

/* Takes the round and, where it was the last of its phase, weighs. */
static uint32_t take(struct end *end, const struct air *air) {
  uint32_t number = rolgevin_end_take(SHEET, SHEET_LEN, end->state, ROLGEVIN_STATE_WORDS, air->pairs, 2 * air->count,
                                      end->notebook, ROLGEVIN_NOTEBOOK_WORDS);
  if (number == 0 && end->state[0] == ROLGEVIN_END_WEIGHING)
    number = rolgevin_end_weigh(SHEET, SHEET_LEN, end->state, ROLGEVIN_STATE_WORDS, end->notebook,
                                ROLGEVIN_NOTEBOOK_WORDS);
  return number;
}

static uint32_t by_ends(void) {
  struct end ends[SOUND] = {{{0}, {0}}};
  uint32_t number = 0;
  for (uint32_t v = 0; v < SOUND && number == 0; v++)
    number = rolgevin_end_begin(SHEET, SHEET_LEN, v, v, ends[v].state, ROLGEVIN_STATE_WORDS);
  for (int turn = 1; turn <= TURNS && number == 0; turn++) {
    struct air air = {.count = 0};
    if (turn == 1) put(&air, 2, LIE);
    for (uint32_t v = 0; v < SOUND && number == 0; v++) number = speak(&ends[v], v, &air);
    for (uint32_t v = 0; v < SOUND && number == 0; v++) number = take(&ends[v], &air);
    if (number == 0)
      printf("turn %d: site 0 tag %u bit %u, site 1 tag %u bit %u\n", turn, ends[0].state[0], ends[0].state[2],
             ends[1].state[0], ends[1].state[2]);
  }
  return number;
}

int main(void) {
  uint32_t place[1] = {9};
  uint32_t number = rolgevin_check(SHEET, SHEET_LEN, place, 1);
  printf("check: %u at %u\n", number, place[0]);
  number = rolgevin_check(SHEET, SHEET_LEN - 1, place, 1);
  printf("check without the last word: %u at %u\n", number, place[0]);
  by_floor();
  number = by_ends();
  printf("ends: %u\n", number);
  return number == 0 ? 0 : 1;
}
