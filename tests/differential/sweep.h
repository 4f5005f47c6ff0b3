/*
 * sweep.h - what is tried in full rather than at random: every mixture of right
 * and wrong words of a key, every byte of a record, every byte of an image, every
 * length of a chain, every place in it for an entry of another form, every bit of
 * an address on a disk of 65,536 sectors, every bit of a sector flipped, every
 * mixture of wrong lengths, sizes of disks about the native limit. Each function
 * prints the first difference and returns false.
 */
#ifndef SWEEP_H
#define SWEEP_H

#include "pair.h"
#include "statistics.h"

bool sweep_keys(struct pair *pair, struct statistics *s);

/* `thorough`: all 256 values of each byte instead of a few. */
bool sweep_records(struct pair *pair, struct statistics *s, bool thorough);
bool sweep_images(struct pair *pair, struct statistics *s, bool thorough);
bool sweep_chain(struct pair *pair, struct statistics *s);
bool sweep_forms(struct pair *pair, struct statistics *s);
bool sweep_addresses(struct pair *pair, struct statistics *s);
bool sweep_flips(struct pair *pair, struct statistics *s);
bool sweep_lengths(struct pair *pair, struct statistics *s);
bool sweep_sizes(struct pair *pair, struct statistics *s);

#endif
