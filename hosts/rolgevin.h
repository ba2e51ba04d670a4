/* Rolgevin for hosts written in C, or in any language that can call C.
 *
 * Every function takes numbers and slices of 32-bit words and nothing else. A slice is a pointer and then how many
 * words it has. A slice's pointer is not null and is aligned as a uint32_t is, also where it has no words, and a slice
 * that is written to shares no word with another of the same call. Beyond that the functions take any numbers and any
 * words. They allocate nothing, keep nothing, call nothing of the host's, and may be called from several threads at a
 * time, each on slices of its own.
 *
 * Every function answers 0, or the number of a refusal. A refused call leaves every slice as it was, but for the place
 * that rolgevin_check tells. docs/FORMATS.md says what a sheet is, and docs/REFUSALS.md has the numbers of the engine.
 */
#ifndef ROLGEVIN_H
#define ROLGEVIN_H

#include <stddef.h>
#include <stdint.h>

#ifdef __cplusplus
extern "C" {
#endif

/* Numbers that are not in the engine's table. */
enum {
  ROLGEVIN_NO_CALL = 100,   /* in an answer of rolgevin_run: the code is none of the six */
  ROLGEVIN_TOO_SHORT = 101, /* a slice has too few words */
  ROLGEVIN_NO_STATE = 102   /* the words are no state that the call takes, or a bit is neither 0 nor 1 */
};

/* The codes of the calls on a floor. A call is three words: code, site, word. */
enum {
  ROLGEVIN_TRANSMIT = 1, /* puts a word for a rogue site */
  ROLGEVIN_SPEAK = 2,    /* puts all that a sound site owes in this round */
  ROLGEVIN_TURN = 3,     /* lets all sound sites hear, and ends the round */
  ROLGEVIN_HELD = 4,     /* asks for the bit that a sound site holds */
  ROLGEVIN_DECISION = 5, /* asks for that bit after the last phase */
  ROLGEVIN_RECALLED = 6  /* asks for the bit noted for a path, given as its flood word with bit 0 */
};

/* A single end's state is seven words: the tag, the site, its bit (0 or 1), the phase (from 0), the round (from 1), and
 * the n and f of the sheet that it began with. Weighing has round 0, and done has zeros for all but its tag and its bit.
 * A notebook is 325 words, of which only bit 0 counts: the word at place i is of the i-th path along which the site
 * expects a bit, by length, then ascending. docs/SINGLE-END.md says how an end is driven.
 *
 * The tags of the states, and how many words each slice has to have: */
enum {
  ROLGEVIN_END_ROUND = 1,
  ROLGEVIN_END_WEIGHING = 2,
  ROLGEVIN_END_DONE = 3,
  ROLGEVIN_STATE_WORDS = 7,
  ROLGEVIN_NOTEBOOK_WORDS = 325,
  ROLGEVIN_SPOKEN_WORDS = 121
};

/* Checks a sheet: 0 where it is complete, else 1 to 8. Where place has a word, its first one becomes the place of the
 * refusal, and 0 where there is none. */
uint32_t rolgevin_check(const uint32_t *sheet, size_t sheet_len, uint32_t *place, size_t place_len);

/* Opens a floor on a sheet, for a mask of rogues and a mask of bits, and performs calls in their order: as many as
 * there are whole threes in calls and whole pairs in answers. An answer is two words: 0 and the value, or the number of
 * the refusal and 0. Answers 0, 1 to 8 for the sheet, or 11 or 12 for the masks. */
uint32_t rolgevin_run(const uint32_t *sheet, size_t sheet_len, uint32_t rogues, uint32_t bits,
                      const uint32_t *calls, size_t calls_len, uint32_t *answers, size_t answers_len);

/* Begins a single end for a site with a bit: the first seven words of state are its first round. Answers 0, 101, 1 to
 * 8, 102 or 21. */
uint32_t rolgevin_end_begin(const uint32_t *sheet, size_t sheet_len, uint32_t site, uint32_t bit,
                            uint32_t *state, size_t state_len);

/* Puts how many words the end owes in its round into words[0], and the words behind it. Answers 0, 101, 1 to 8, 102
 * or 14. */
uint32_t rolgevin_end_speak(const uint32_t *sheet, size_t sheet_len, const uint32_t *state, size_t state_len,
                            const uint32_t *notebook, size_t notebook_len, uint32_t *words, size_t words_len);

/* Has the end take its round, with the pairs of words, site and word, that were heard in it, each site's in the order in
 * which they came; past the 120th of a site they do not count. The state becomes the next round or weighing, and the
 * notebook has what was heard. Answers 0, 101, 1 to 8, 102 or 14. */
uint32_t rolgevin_end_take(const uint32_t *sheet, size_t sheet_len, uint32_t *state, size_t state_len,
                           const uint32_t *heard, size_t heard_len, uint32_t *notebook, size_t notebook_len);

/* Has the end weigh its phase by its notebook: the state becomes round 1 of the next phase, or done. Answers 0, 101, 1 to
 * 8, 102 or 14. */
uint32_t rolgevin_end_weigh(const uint32_t *sheet, size_t sheet_len, uint32_t *state, size_t state_len,
                            const uint32_t *notebook, size_t notebook_len);

#ifdef __cplusplus
}
#endif

#endif
