/* The numbers of refusal in words. */
#ifndef REFUSALS_H
#define REFUSALS_H

#include "status.h"

#include <stddef.h>
#include <stdint.h>
#include <stdio.h>

/* Writes every number with its sentence and what to do about it. */
void write_numbers(FILE *to);

/* Tells the refusal on standard error: FILE:CARD: refused NUMBER: why. */
void tell_refusal(const char *file, unsigned number, unsigned card);

/* Tells a card's bytes on standard error, without the blanks on the right. */
void tell_card(const uint8_t *bytes, size_t length);

/* Tells on standard error what to do about the refusal, and answers REFUSED. */
enum status tell_advice(unsigned number, unsigned card);

#endif
