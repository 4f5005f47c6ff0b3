/*
 * layout.h - the record by the names of docs/record-layout.md: for printing
 * differences, for choosing steps that matter, and for building records and
 * image entries without the help of the code under test.
 */
#ifndef TEST_LAYOUT_H
#define TEST_LAYOUT_H

#include <stdbool.h>
#include <stddef.h>
#include <stdint.h>
#include <stdio.h>

#include "random.h"

enum { STAGE_EMPTY, STAGE_HELD, STAGE_ANSWERED };
enum { PENDING_NONE, PENDING_TABLE, PENDING_FILL, PENDING_LONG_READ, PENDING_LONG_WRITE };

struct slot_fields {
    uint8_t  stage, pending;
    uint64_t first, end;        /* of a fill; first is the LBA of a Long transfer */
};

struct record_fields {
    uint64_t native, visible;
    uint8_t  locked, flag, filling;
    uint16_t code, action, function;
    uint16_t read_timer, write_timer;
    uint16_t feature1, feature2, interval;
    uint8_t  kept1, kept2, kept3;
    uint16_t minutes;
    uint8_t  now, cycle, life;
    uint64_t first, next, end;
    struct slot_fields slot[4];
    uint16_t index;
    uint8_t  history[478];
};

void decode_record(struct record_fields *f, const uint8_t *record);
void encode_record(uint8_t *record, const struct record_fields *f);

/* The port with the pending transfer, or -1. */
int pending_port(const struct record_fields *f);

/* Prints each field in which the two records differ; returns how many. */
unsigned print_record_difference(FILE *out, const char *name_a, const uint8_t *a,
                                 const char *name_b, const uint8_t *b);

/* The name of the field that holds this byte of the record. */
const char *field_at(size_t offset);

/* A random sound record of a disk of `native` sectors, reachable or not. */
void random_record(struct random *r, uint8_t *record, uint64_t native);

/* Moves one number of the record to, or just over, a limit of its range. */
void spoil_record(struct random *r, uint8_t *record);

/* Bytes 25 to 29 of an entry: its form, with the timers if that is form 2. */
void put_form(uint8_t *entry, uint32_t form, uint16_t read_timer, uint16_t write_timer);

/* Writes entry number `number` (from 1) of a chain, with a random body of this form. */
void random_entry(struct random *r, uint8_t *image, uint32_t number, uint64_t native, uint32_t form);

/* A reading: often one at a limit of its range. */
uint8_t random_reading(struct random *r);

#endif
