/* The parts of a pattern, which pattern_model.c reads from a text and says, and packed_model.c packs and reads from a block. */
#ifndef PARTS_H
#define PARTS_H

#include "model.h"

/* The forms by their numbers in a block. An argument that chooses begins with one of three. */
enum form { TEXT, HASH, ARGUMENT, BEGIN, BEGIN_ORDINAL, BEGIN_SELECT, KEYWORD, EXACTLY, END };

struct part {
    enum form form;
    size_t depth;
    /* The name of an argument. */
    struct slice name;
    /* A text, a keyword, a number, or the digits of an offset, which are none if there is no offset. */
    struct slice own;
};

enum { MOST_PARTS = 70000 };

struct parts {
    struct part at[MOST_PARTS];
    size_t length;
};

/* Each fills the parts, and returns 0 or the fault. */
int64_t model_read_text(struct slice text, struct parts *parts);
int64_t model_read_block(struct slice block, struct parts *parts);

#endif
