/* Blocks of bytes for smoke.c, and the version 2 copy of a case. */
#ifndef BYTES_H
#define BYTES_H

#include <stdint.h>
#include <stdio.h>
#include <stdlib.h>
#include <string.h>

static void put16(uint8_t *at, uint16_t value) {
    at[0] = (uint8_t)value;
    at[1] = (uint8_t)(value >> 8);
}

static void put32(uint8_t *at, uint32_t value) {
    put16(at, (uint16_t)value);
    put16(at + 2, (uint16_t)(value >> 16));
}

static uint32_t get32(const uint8_t *at) {
    return at[0] | (uint32_t)at[1] << 8 | (uint32_t)at[2] << 16 | (uint32_t)at[3] << 24;
}

static void *block(size_t length) {
    void *made = malloc(length);
    if (made == NULL) {
        puts("C: no memory");
        exit(2);
    }
    return made;
}

/* A block of exactly these bytes. */
static void *copy(const void *bytes, size_t length) {
    return memcpy(block(length), bytes, length);
}

/* A block of one byte many times. */
static uint8_t *filled(size_t length, uint8_t byte) {
    return memset(block(length), byte, length);
}

/* A section of either version: the bytes of a record, those that version 2 has more, and where version 1 has the number of the unit. */
static const struct {
    size_t bytes;
    size_t more;
    size_t number;
} SECTIONS[4] = {{24, 4, 0}, {8, 4, 0}, {12, 0, 0}, {312, 4, 2}};

/* The records of a section in version 2, for the same units; where they end. */
static uint8_t *widen(uint8_t *to, const uint8_t *from, size_t length, size_t section) {
    size_t bytes = SECTIONS[section].bytes, more = SECTIONS[section].more, number = SECTIONS[section].number;
    for (size_t at = 0; at < length; at += bytes) {
        memcpy(to, from + at, bytes);
        if (more != 0) {
            memset(to + number, 0, 2);
            memcpy(to + bytes, from + at + number, 2);
            memset(to + bytes + 2, 0, 2);
        }
        to += bytes + more;
    }
    return to;
}

/* The version 2 copy of a case, which is longer by 4 bytes for each unit, reference and event, so many records. */
static uint8_t *version_2(const uint8_t *file, size_t length, size_t records) {
    uint8_t *copied = block(length + 4 * records);
    uint8_t *to = copied + 36;
    memcpy(copied, file, 36);
    put16(copied, 2);
    for (size_t section = 0; section < 4; section++) {
        const uint8_t *pair = file + 4 + 8 * section;
        uint8_t *end = widen(to, file + get32(pair), get32(pair + 4), section);
        put32(copied + 4 + 8 * section, (uint32_t)(to - copied));
        put32(copied + 8 + 8 * section, (uint32_t)(end - to));
        to = end;
    }
    return copied;
}

#endif
