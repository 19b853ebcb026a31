/*
 * Katsunebyo: the Kalyna cipher (DSTU 7624) on one cell, and recipes that are prepared once and run once a row.
 *
 * Link with libkatsunebyo.a (x86-64); it needs nothing but the C library.
 *
 * What holds for every function
 * -----------------------------
 * Answer. The function returns a number: 0 (KATSU_DONE), or why it refused. It always returns, whatever the bytes,
 * lengths and numbers are, and always writes *length (and *place).
 *   - With 0, *length bytes of the answer stand at the front of out; later bytes of out are unchanged.
 *   - With any other number, *length is 0 and no byte of out is changed.
 *
 * Buffers. Each buffer is a pointer and a length. A buffer of length 0 may come with a null pointer. All buffers of one
 * call are separate: out and work overlap each other and no input. length and place are not null, and they overlap
 * neither each other nor any buffer. Inputs are read and never written.
 *
 * Keys belong to the host. The library keeps nothing between calls: no key, no table, no state. While a call lasts,
 * keys are copied to the machine stack; what is left there afterwards is not promised. Any number of threads may call
 * at once.
 *
 * Stack. A thread with KATSU_STACK_NEED bytes of machine stack can make every call; the tests run the deepest and
 * widest recipes on such a thread. Nothing is taken from the heap.
 */
#ifndef KATSUNEBYO_H
#define KATSUNEBYO_H

#include <stddef.h>
#include <stdint.h>

#ifdef __cplusplus
extern "C" {
#endif

/* ---- Bounds, in bytes ------------------------------------------------------------------------------------------ */

#define KATSU_MAX_VALUE 1024    /* a value, a text to seal or open, a result */
#define KATSU_MAX_TEXT 4096     /* a recipe's text */
#define KATSU_MAX_IMAGE 16384   /* an image */
#define KATSU_WORK_ROOM 65536   /* the work room that katsu_prepare and katsu_run borrow */
#define KATSU_STACK_NEED 262144 /* enough machine stack for every call */

/* ---- Numbers --------------------------------------------------------------------------------------------------- */

enum katsu_number {
    KATSU_DONE = 0,     /* the answer stands in out */
    KATSU_SUITE = 1,    /* suite number not 1 to 5 */
    KATSU_KEY = 2,      /* key length not the suite's */
    KATSU_IV = 3,       /* IV not one block */
    KATSU_EMPTY = 4,    /* empty text */
    KATSU_PARTIAL = 5,  /* blk, unblk: not one block; cbc, uncbc, uncbp: not whole blocks */
    KATSU_LONG = 6,     /* value, text or result over 1,024 bytes */
    KATSU_TAG = 7,      /* tag not 8 bytes to one block */
    KATSU_FILL = 8,     /* uncbp: no text of 1 to 1,023 bytes seals to these bytes under this key and IV */
    KATSU_ROOM = 9,     /* out shorter than the answer */
    KATSU_UNEQUAL = 10, /* xor: lengths differ */
    KATSU_CHOICE = 11,  /* when: first argument not 00 or 01 */
    KATSU_SHORT = 12,   /* head: count not one byte, or more than there is */
    KATSU_WRAP = 13,    /* ctr: two counters of one cell equal (no cell of at most 1,024 bytes has them) */
    KATSU_WORK = 14,    /* work room under 65,536 bytes */
    KATSU_SYNTAX = 20,  /* text is no recipe */
    KATSU_TEXT = 21,    /* recipe's text over 4,096 bytes */
    KATSU_DEEP = 22,    /* a seventeenth level */
    KATSU_MANY = 23,    /* a 129th node */
    KATSU_ABSENT = 25,  /* name without a value */
    KATSU_IMAGE = 26,   /* folded image over 16,384 bytes */
    KATSU_LIST = 27,    /* bad list */
    KATSU_FORM = 28     /* bytes are no image */
};

/* ---- The cipher on one cell ------------------------------------------------------------------------------------
 *
 *   suite   block B   key      (bytes; any other suite number is refused with 1)
 *     1       16       16
 *     2       16       32
 *     3       32       32
 *     4       32       64
 *     5       64       64
 *
 * Where several refusals hold, the first in this order is given: 1, 2, 3, 4, 6, 5, 7, 8, 13, 9. katsu_cbp judges 6 by
 * its result, every other function by its text. A key, IV, tag or block has only its own length check.
 *
 * An IV must not serve twice under one key, and for CFB and CBC it must be one that nobody can foretell.
 */

/* One block sealed, one block opened. block and answer: B bytes. Refusals: 1, 2, 5, 9. */
uint32_t katsu_blk(uint64_t suite, const uint8_t *key, size_t key_len, const uint8_t *block, size_t block_len,
                   uint8_t *out, size_t out_len, size_t *length);
uint32_t katsu_unblk(uint64_t suite, const uint8_t *key, size_t key_len, const uint8_t *block, size_t block_len,
                     uint8_t *out, size_t out_len, size_t *length);

/* CTR and OFB: the same call seals and opens. text: 1 to 1,024 bytes; answer: as many.
 * Refusals: 1, 2, 3, 4, 6, 13 (katsu_ctr), 9. */
uint32_t katsu_ctr(uint64_t suite, const uint8_t *key, size_t key_len, const uint8_t *iv, size_t iv_len,
                   const uint8_t *text, size_t text_len, uint8_t *out, size_t out_len, size_t *length);
uint32_t katsu_ofb(uint64_t suite, const uint8_t *key, size_t key_len, const uint8_t *iv, size_t iv_len,
                   const uint8_t *text, size_t text_len, uint8_t *out, size_t out_len, size_t *length);

/* CFB with feedback of a whole block, sealing and opening. text: 1 to 1,024 bytes; answer: as many.
 * Refusals: 1, 2, 3, 4, 6, 9. */
uint32_t katsu_cfb(uint64_t suite, const uint8_t *key, size_t key_len, const uint8_t *iv, size_t iv_len,
                   const uint8_t *text, size_t text_len, uint8_t *out, size_t out_len, size_t *length);
uint32_t katsu_uncfb(uint64_t suite, const uint8_t *key, size_t key_len, const uint8_t *iv, size_t iv_len,
                     const uint8_t *text, size_t text_len, uint8_t *out, size_t out_len, size_t *length);

/* CBC of whole blocks, sealing and opening. text: whole blocks, at most 1,024 bytes; answer: as many.
 * Refusals: 1, 2, 3, 4, 6, 5, 9. */
uint32_t katsu_cbc(uint64_t suite, const uint8_t *key, size_t key_len, const uint8_t *iv, size_t iv_len,
                   const uint8_t *text, size_t text_len, uint8_t *out, size_t out_len, size_t *length);
uint32_t katsu_uncbc(uint64_t suite, const uint8_t *key, size_t key_len, const uint8_t *iv, size_t iv_len,
                     const uint8_t *text, size_t text_len, uint8_t *out, size_t out_len, size_t *length);

/* CBC with a fill. katsu_cbp appends 80, then 00 up to a block end: n bytes become B * (n / B + 1), at most 1,024.
 * katsu_uncbp opens and takes the fill off. Refusals: 1, 2, 3, 4, 6, 9; for katsu_uncbp 1, 2, 3, 4, 6, 5, 8, 9. */
uint32_t katsu_cbp(uint64_t suite, const uint8_t *key, size_t key_len, const uint8_t *iv, size_t iv_len,
                   const uint8_t *text, size_t text_len, uint8_t *out, size_t out_len, size_t *length);
uint32_t katsu_uncbp(uint64_t suite, const uint8_t *key, size_t key_len, const uint8_t *iv, size_t iv_len,
                     const uint8_t *text, size_t text_len, uint8_t *out, size_t out_len, size_t *length);

/* CMAC: the tag of a text of 1 to 1,024 bytes. Answer: B bytes, of which the leading 8 or more may be kept.
 * Refusals: 1, 2, 4, 6, 9. */
uint32_t katsu_mac(uint64_t suite, const uint8_t *key, size_t key_len, const uint8_t *text, size_t text_len,
                   uint8_t *out, size_t out_len, size_t *length);

/* Whether tag, 8 to B bytes, is the front of the text's tag. Answer: one byte, 01 for yes, 00 for no. A no is no
 * refusal: the number is 0. Refusals: 1, 2, 4, 6, 7, 9. */
uint32_t katsu_chk(uint64_t suite, const uint8_t *key, size_t key_len, const uint8_t *tag, size_t tag_len,
                   const uint8_t *text, size_t text_len, uint8_t *out, size_t out_len, size_t *length);

/* ---- Recipes ---------------------------------------------------------------------------------------------------
 *
 * A recipe is a text without blanks, such as   cat(@0,ctr.3(#0,@0,$0))
 *   literals   'pairs of 0-9 A-F', none allowed: ''
 *   names      #0..#3 bound at preparing, $0..$7 of the row, @0..@3 of the run
 *   calls      cat(a,b) xor(a,b) eq(a,b) head(n,a) when(c,a,b), and the cipher calls with a suite digit:
 *              blk.S unblk.S (key,block)   ctr.S ofb.S cfb.S uncfb.S cbc.S uncbc.S cbp.S uncbp.S (key,IV,text)
 *              mac.S (key,text)   chk.S (key,tag,text)
 * At most 16 levels, 128 nodes and 4,096 bytes; every value has at most 1,024 bytes.
 *
 * A list gives names their values. It is made of records, in any order, no name twice; the empty list is good:
 *   2 bytes   length of the value, low byte first, at most 1,024
 *   2 bytes   kind, low byte first: 0x0200 + n for #n, 0x0300 + n for $n, 0x0400 + n for @n
 *   the value
 *
 * Work room. Both functions borrow work, at least KATSU_WORK_ROOM bytes. Its bytes on entry do not matter. Afterwards
 * its first 65,536 bytes are zero, with every number but 14, which changes nothing; bytes beyond are never changed.
 */

/* Reads the text, folds what is known, and writes the image. Give out KATSU_MAX_IMAGE bytes and every image fits.
 * list may hold # names only.
 * Refusals, in this order: 14; 21; reading left to right 20, 22, 23, 6; 27; 25; 26; 9.
 * *place says where in the text, counted from 0: with 20 the first byte that no rule allows (the first letter of an
 * unknown call; the text's length where it ends early), with 22 and 23 where the expression is due, with 6 the first
 * quote of the literal, with 25 the first # without a value. With every other number, 0 included, it is 0. */
uint32_t katsu_prepare(const uint8_t *text, size_t text_len, const uint8_t *list, size_t list_len, uint8_t *out,
                       size_t out_len, uint8_t *work, size_t work_len, size_t *length, size_t *place);

/* Runs an image on a list of $ and @ names and writes the value. Give out KATSU_MAX_VALUE bytes and every value fits.
 * The image is checked anew: it may come from anywhere.
 * Refusals, in this order: 14; 28; 27; what the recipe means, 25 when a name without a value is reached, else the
 * refusal of the first call that has no value (2 to 8, 10 to 13); 9. */
uint32_t katsu_run(const uint8_t *image, size_t image_len, const uint8_t *list, size_t list_len, uint8_t *out,
                   size_t out_len, uint8_t *work, size_t work_len, size_t *length);

#ifdef __cplusplus
}
#endif

#endif
