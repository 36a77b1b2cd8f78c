/* Reads a line's words: numbers in decimal, byte strings in hexadecimal, lists of them with commas between, - for no bytes and for no
   strings. C and C++ compile it. */
#ifndef LINES_H
#define LINES_H

#include <stdio.h>
#include <stdlib.h>
#include <string.h>
#include "gawerunoa.h"

struct bytes {
    uint8_t *at;
    size_t length;
};

struct list {
    struct bytes joined;
    size_t *lengths;
    size_t count;
};

static const char *next(void) {
    const char *word = strtok(NULL, " \n");
    if (!word) exit(3);
    return word;
}

static size_t number(void) {
    return strtoull(next(), NULL, 10);
}

static void *taken(size_t size) {
    void *at = size ? malloc(size) : 0;
    if (size && !at) exit(4);
    return at;
}

static int digit(char c) {
    return c <= '9' ? c - '0' : c - 'a' + 10;
}

static struct bytes next_bytes(void) {
    const char *word = next();
    struct bytes it = {0, 0};
    it.length = strcmp(word, "-") ? strlen(word) / 2 : 0;
    it.at = (uint8_t *)taken(it.length);
    for (size_t i = 0; i < it.length; i++) it.at[i] = (uint8_t)(16 * digit(word[2 * i]) + digit(word[2 * i + 1]));
    return it;
}

/* A list is written as its strings joined with commas; an empty string between commas is one of no bytes. */
static struct list next_list(void) {
    const char *word = next();
    struct list it = {{0, 0}, 0, 0};
    if (!strcmp(word, "-")) return it;
    it.count = 1;
    for (const char *c = word; *c; c++) it.count += *c == ',';
    it.lengths = (size_t *)taken(it.count * sizeof *it.lengths);
    size_t digits = strlen(word) - (it.count - 1);
    it.joined.length = digits / 2;
    it.joined.at = (uint8_t *)taken(it.joined.length);
    uint8_t *at = it.joined.at;
    for (size_t i = 0; i < it.count; i++) {
        size_t span = strcspn(word, ",");
        it.lengths[i] = span / 2;
        for (size_t k = 0; k < span; k += 2) *at++ = (uint8_t)(16 * digit(word[k]) + digit(word[k + 1]));
        word += span + 1;
    }
    return it;
}

#endif
