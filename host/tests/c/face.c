/* Every function of katsunebyo.h, called from C. Prints a line for each check that fails, and the count of checks. */

#include "katsunebyo.h"

#include <stdio.h>
#include <stdlib.h>
#include <string.h>

static int checks;
static int failures;

static void check(int good, const char *what) {
    checks++;
    if (!good) {
        failures++;
        printf("failed: %s\n", what);
    }
}

/* Bytes from pairs of digits. */
struct bytes {
    uint8_t at[2048];
    size_t length;
};

static struct bytes bytes(const char *digits) {
    struct bytes b;
    unsigned value;
    b.length = 0;
    while (sscanf(digits, "%2x", &value) == 1) {
        b.at[b.length++] = (uint8_t)value;
        digits += 2;
    }
    return b;
}

/* The output, between bytes that must stay. */
static uint8_t room[2048];
static size_t length;
static size_t place;

static void lay(void) {
    memset(room, 0xA5, sizeof room);
    length = 12345;
    place = 12345;
}

/* An answer of these bytes, and nothing behind it changed. */
static void answered(uint32_t number, const char *digits, const char *what) {
    struct bytes expected = bytes(digits);
    size_t i, kept = 1;
    check(number == KATSU_DONE, what);
    check(length == expected.length && memcmp(room, expected.at, length) == 0, what);
    for (i = expected.length; i < sizeof room; i++) {
        kept = kept && room[i] == 0xA5;
    }
    check(kept, what);
}

static void refused(uint32_t number, uint32_t expected, const char *what) {
    size_t i, kept = 1;
    check(number == expected, what);
    check(length == 0, what);
    for (i = 0; i < sizeof room; i++) {
        kept = kept && room[i] == 0xA5;
    }
    check(kept, what);
}

#define OUT room, sizeof room, &length
#define IN(b) (b).at, (b).length

static void cipher(void) {
    struct bytes key = bytes("000102030405060708090A0B0C0D0E0F");
    struct bytes iv = bytes("101112131415161718191A1B1C1D1E1F");
    struct bytes text = bytes("202122232425262728292A2B2C2D2E2F303132333435363738393A3B3C3D3E3F404142434445464748");
    struct bytes whole = bytes("202122232425262728292A2B2C2D2E2F303132333435363738393A3B3C3D3E3F404142434445464748494A4B4C4D4E4F");
    const char *ctr = "A90A6B9780ABDFDFF64D14F5439E88F266DC50EDD341528DD5E698E2F000CE21F872DAF9FE1811844A";
    const char *cfb = "A19E3E5E53BE8A07C9E0C01298FF83291F8EE6212110BE3FA5C72C88A082520B265570FE28680719D9B4465E169BC37A";
    const char *cbc = "A73625D7BE994E85469A9FAABCEDAAB6DBC5F65DD77BB35E06BD7D1D8EAFC8624D6CB31CE189C82B8979F2936DE9BF14";
    const char *ofb = "A19E3E5E53BE8A07C9E0C01298FF832953205C661BD85A51F3A94113BC785CAB634B36E89A8FDD16A12E4467F5CC5A26";
    const char *tag = "123B4EAB8E63ECF3E645A99C1115E241";
    struct bytes sealed;

    lay();
    answered(katsu_blk(1, IN(key), IN(iv), OUT), "81BF1C7D779BAC20E1C9EA39B4D2AD06", "blk");
    sealed = bytes("81BF1C7D779BAC20E1C9EA39B4D2AD06");
    lay();
    answered(katsu_unblk(1, IN(key), IN(sealed), OUT), "101112131415161718191A1B1C1D1E1F", "unblk");
    lay();
    answered(katsu_ctr(1, IN(key), IN(iv), IN(text), OUT), ctr, "ctr");
    lay();
    answered(katsu_ofb(1, IN(key), IN(iv), IN(whole), OUT), ofb, "ofb");
    lay();
    answered(katsu_cfb(1, IN(key), IN(iv), IN(whole), OUT), cfb, "cfb");
    sealed = bytes(cfb);
    lay();
    answered(katsu_uncfb(1, IN(key), IN(iv), IN(sealed), OUT),
             "202122232425262728292A2B2C2D2E2F303132333435363738393A3B3C3D3E3F404142434445464748494A4B4C4D4E4F", "uncfb");
    lay();
    answered(katsu_cbc(1, IN(key), IN(iv), IN(whole), OUT), cbc, "cbc");
    sealed = bytes(cbc);
    lay();
    answered(katsu_uncbc(1, IN(key), IN(iv), IN(sealed), OUT),
             "202122232425262728292A2B2C2D2E2F303132333435363738393A3B3C3D3E3F404142434445464748494A4B4C4D4E4F", "uncbc");
    lay();
    check(katsu_cbp(1, IN(key), IN(iv), IN(text), OUT) == KATSU_DONE && length == 48, "cbp");
    memcpy(sealed.at, room, length);
    sealed.length = length;
    lay();
    answered(katsu_uncbp(1, IN(key), IN(iv), IN(sealed), OUT),
             "202122232425262728292A2B2C2D2E2F303132333435363738393A3B3C3D3E3F404142434445464748", "uncbp");
    lay();
    answered(katsu_mac(1, IN(key), IN(whole), OUT), tag, "mac");
    sealed = bytes(tag);
    lay();
    answered(katsu_chk(1, IN(key), IN(sealed), IN(whole), OUT), "01", "chk of the right tag");
    sealed.at[15] ^= 1;
    lay();
    answered(katsu_chk(1, IN(key), IN(sealed), IN(whole), OUT), "00", "chk of a wrong tag");

    lay();
    refused(katsu_ctr(UINT64_C(4294967297), IN(key), IN(iv), IN(text), OUT), KATSU_SUITE, "suite 2^32 + 1");
    lay();
    refused(katsu_ctr(1, key.at, 15, IN(iv), IN(text), OUT), KATSU_KEY, "short key");
    lay();
    refused(katsu_ctr(1, IN(key), iv.at, 17, IN(text), OUT), KATSU_IV, "long IV");
    lay();
    refused(katsu_cbc(1, IN(key), IN(iv), IN(text), OUT), KATSU_PARTIAL, "partial block");
    lay();
    refused(katsu_ctr(1, IN(key), IN(iv), text.at, 1025, OUT), KATSU_LONG, "long text");
    lay();
    refused(katsu_chk(1, IN(key), iv.at, 7, IN(text), OUT), KATSU_TAG, "short tag");
    lay();
    refused(katsu_ctr(1, IN(key), IN(iv), IN(text), room, text.length - 1, &length), KATSU_ROOM, "room one short");
}

/* A slice of no bytes may come with a null pointer, in every place. */
static void nulls(void) {
    struct bytes key = bytes("000102030405060708090A0B0C0D0E0F");
    uint8_t *work = malloc(KATSU_WORK_ROOM);
    if (!work) {
        check(0, "no memory for the work room");
        return;
    }
    lay();
    refused(katsu_blk(1, NULL, 0, NULL, 0, OUT), KATSU_KEY, "blk of nothing");
    lay();
    refused(katsu_ctr(1, IN(key), NULL, 0, NULL, 0, OUT), KATSU_IV, "no IV");
    lay();
    refused(katsu_ctr(1, IN(key), IN(key), NULL, 0, NULL, 0, &length), KATSU_EMPTY, "no text, no room");
    lay();
    refused(katsu_ctr(1, IN(key), IN(key), IN(key), NULL, 0, &length), KATSU_ROOM, "no room");
    lay();
    refused(katsu_chk(1, IN(key), NULL, 0, IN(key), NULL, 0, &length), KATSU_TAG, "no tag");
    lay();
    refused(katsu_mac(9, NULL, 0, NULL, 0, NULL, 0, &length), KATSU_SUITE, "nothing at all");
    lay();
    refused(katsu_prepare(NULL, 0, NULL, 0, NULL, 0, NULL, 0, &length, &place), KATSU_WORK, "no work room");
    check(place == 0, "place without a work room");
    lay();
    refused(katsu_prepare(NULL, 0, NULL, 0, NULL, 0, work, KATSU_WORK_ROOM, &length, &place), KATSU_SYNTAX, "no text");
    check(place == 0, "place of no text");
    lay();
    refused(katsu_run(NULL, 0, NULL, 0, NULL, 0, NULL, 0, &length), KATSU_WORK, "no work room to run");
    lay();
    refused(katsu_run(NULL, 0, NULL, 0, NULL, 0, work, KATSU_WORK_ROOM, &length), KATSU_FORM, "no image");
    lay();
    answered(katsu_run((const uint8_t *)"\0\0\1\0", 4, NULL, 0, NULL, 0, work, KATSU_WORK_ROOM, &length), "",
             "the empty value into no room");
    free(work);
}

/* The work room: cleared up to KATSU_WORK_ROOM, as it was beyond. */
static void cleared(const uint8_t *work, size_t beyond, const char *what) {
    size_t i, good = 1;
    for (i = 0; i < KATSU_WORK_ROOM; i++) {
        good = good && work[i] == 0;
    }
    for (i = 0; i < beyond; i++) {
        good = good && work[KATSU_WORK_ROOM + i] == 0x5A;
    }
    check(good, what);
}

static void prepares(const char *text, const char *image, uint8_t *work) {
    struct bytes bound = bytes("0100000242");
    lay();
    memset(work, 0x5A, KATSU_WORK_ROOM + 16);
    answered(katsu_prepare((const uint8_t *)text, strlen(text), IN(bound), room, sizeof room, work,
                           KATSU_WORK_ROOM + 16, &length, &place),
             image, text);
    check(place == 0, text);
    cleared(work, 16, text);
}

static void misread(const char *text, uint32_t number, size_t where, uint8_t *work) {
    lay();
    refused(katsu_prepare((const uint8_t *)text, strlen(text), NULL, 0, room, sizeof room, work, KATSU_WORK_ROOM,
                          &length, &place),
            number, text);
    check(place == where, text);
    cleared(work, 0, text);
}

static void recipes(void) {
    struct bytes image = bytes("0B0010000200010041420100030001");
    struct bytes list = bytes("030001046869FF");
    uint8_t *work = malloc(KATSU_WORK_ROOM + 16);
    if (!work) {
        check(0, "no memory for the work room");
        return;
    }
    prepares("cat('41',#0)", "020001004142", work);
    prepares("cat(cat('41',#0),@1)", "0B0010000200010041420100030001", work);
    prepares("xor('41','4142')", "0B0011000100010041020001004142", work);
    prepares("when('01',$0,xor('41','4142'))", "0100020000", work);
    misread("", KATSU_SYNTAX, 0, work);
    misread("cat(", KATSU_SYNTAX, 4, work);
    misread("cat('41',#2)", KATSU_ABSENT, 9, work);

    lay();
    memset(work, 0x5A, KATSU_WORK_ROOM + 16);
    answered(katsu_run(IN(image), IN(list), room, sizeof room, work, KATSU_WORK_ROOM + 16, &length), "41426869FF",
             "run");
    cleared(work, 16, "run");
    lay();
    refused(katsu_run(IN(image), NULL, 0, room, sizeof room, work, KATSU_WORK_ROOM, &length), KATSU_ABSENT,
            "run without a value");
    lay();
    refused(katsu_run(IN(image), IN(image), room, sizeof room, work, KATSU_WORK_ROOM, &length), KATSU_LIST,
            "run with a bad list");
    free(work);
}

int main(void) {
    cipher();
    nulls();
    recipes();
    printf("%d checks, %d failed\n", checks, failures);
    return failures != 0;
}
