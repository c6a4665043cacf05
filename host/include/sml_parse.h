/* The reader of Standard ML's tokens, target/staticlib/libsml_parse.a (made by `tools/archive`, for x86-64). */
#ifndef SML_PARSE_H
#define SML_PARSE_H

#include <stddef.h>
#include <stdint.h>

#ifdef __cplusplus
extern "C" {
#endif

/* The answers. On every answer but SML_READ the used lengths are 0 and all that is lent to write is zero. */
enum sml_answer {
    SML_READ = 0,
    SML_BAD_SETTINGS = 1,    /* depth not 1 to 1,000, mode over 2, text over 65,535 bytes, over 13,107 records, record bytes no multiple of 5 */
    SML_BAD_RECORDS = 2,     /* kind over 69, length 0, start before the previous record's end, or end past the text */
    SML_BAD_ENVIRONMENT = 3, /* the starting environment is not in its form */
    SML_TOO_DEEP = 4,        /* open marks would exceed the depth */
    SML_NO_SCRATCH = 5,      /* scratch records would exceed the whole 8-byte records that fit */
    SML_NO_NODES = 6,        /* the nodes exceed their buffer */
    SML_NO_FINDINGS = 7,     /* findings held would exceed the whole 8-byte records that fit */
    SML_FIXITIES = 8,        /* the 1,025th fixity change, an infix name over 255 bytes, or a 257th entry */
    SML_NO_FINAL = 9,        /* the final environment exceeds its buffer */
    SML_IMPOSSIBLE = 10      /* an impossible case of the source's should_break_exp */
};

/*
 * Reads the tokens of a text.
 *
 * Read:    text; toks, 5 bytes for each token: kind, start (2), length (2); env, the starting environment: entries sorted by name, each
 *          of length, name, precedence (2), association (0 left, 1 right). Numbers of two bytes are little-endian.
 * Set:     depth, 1 to 1,000; mode, 0 or 1 plain, 2 strict.
 * Written: scratch, zero afterwards; nodes, 4 bytes each: 1, kind, 0, 0 opens, 2, kind, index (2) is a token, 3, kind, 0, 0 closes; finds,
 *          8 bytes each: number, detail, place (2), name (2, 65,535 for none), 0, 0; last, the final environment; used, the used bytes of
 *          nodes, finds and last. Behind the used bytes there are zeroes. What the buffers hold before the call is of no account.
 *
 * A pointer whose length is 0 is not read or written through; it should not be null all the same. What is written overlaps nothing else.
 * The calls inside nest with the text: at depth 1,000 a stack with 64 MiB left is always enough.
 */
size_t sml_parse_read(const uint8_t *text, size_t text_len, const uint8_t *toks, size_t toks_len, const uint8_t *env, size_t env_len,
                      uint64_t depth, uint64_t mode, uint8_t *scratch, size_t scratch_len, uint8_t *nodes, size_t nodes_len,
                      uint8_t *finds, size_t finds_len, uint8_t *last, size_t last_len, uint64_t used[3]);

#ifdef __cplusplus
}
#endif

#endif
