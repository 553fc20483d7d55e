/*
 * words.h: steps as words such as erode:8:0:1, and refusals in words.
 */
#ifndef WORDS_H
#define WORDS_H

#include <stddef.h>
#include <stdint.h>

#include "duhzarek.h"

/* The most characters in a step's word, the closing 0 with them. */
enum { MAX_WORD = 32 };

/* Writes the record of the step that the word stands for and returns its length. Fails, naming the step's
 * place in the list, where the word is unknown or a number does not fit its field. Whether the library
 * takes the step is not judged here. */
size_t step_from_word(size_t place, const char *word, uint8_t record[DUHZAREK_MAX_STEP]);

/* Writes the word of a step record that the library has accepted and returns the record's length. */
size_t word_from_step(const uint8_t *record, char word[MAX_WORD]);

/* The refusal of the step record at the front of these bytes, 0 if the library takes it. The size has to be
 * one that it takes. */
uint8_t judge_step(size_t width, size_t height, const uint8_t *steps, size_t steps_len);

/* What the number of a refusal means. */
const char *refusal_in_words(unsigned refusal);

#endif
