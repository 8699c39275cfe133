/* The proved model of SNOVA (version 2, q = 16): every function of libsnova.a. x86-64-v2 (SSE4.1), System V calls, C99 or C++.
 *
 * A buffer is a pointer and then its length in bytes (of exercises, sizes and numbers: in entries). Any set, any lengths and any bytes are
 * answered; nothing is asked of a buffer but that it is there for its length and that a buffer that is written stands apart from all others.
 * A pointer to a buffer of length 0 is not looked at, and must not be null. On a refusal (10 and above) no buffer is written.
 * No function allocates, blocks, keeps anything or calls anything but memcpy and memset. "Stack" below is what a call takes of the caller's
 * stack, in bytes, at most (measured with a painted stack: docs/PROMISES.md). */
#ifndef SNOVA_H
#define SNOVA_H

#include <stddef.h>
#include <stdint.h>

#if defined(__GNUC__) || defined(__clang__)
#define SNOVA_MUST_USE __attribute__((warn_unused_result))
#else
#define SNOVA_MUST_USE
#endif

#ifdef __cplusplus
extern "C" {
#endif

/* The numbers that a caller can receive. */
enum snova_answer {
    SNOVA_DONE = 0,           /* done */
    SNOVA_ACCEPTED = 0,       /* the verdict: accepted */
    SNOVA_NOT_ACCEPTED = 1,   /* the verdict: not accepted */
    SNOVA_NO_FIELD = 1,       /* snova_book_field: no field begins there or after it */
    SNOVA_REDO = 2,           /* signing: output unchanged, work area zero; try again with another vinegar */
    SNOVA_SET = 10,           /* the set is outside the limits */
    SNOVA_PUBLIC = 11,        /* length of the public stream */
    SNOVA_ABQ = 12,           /* length of the ABQ stream */
    SNOVA_PRIVATE = 13,       /* length of the private stream */
    SNOVA_VINEGAR = 14,       /* length of the vinegar stream */
    SNOVA_TARGET = 15,        /* length of the target stream */
    SNOVA_KEY = 16,           /* length of the key */
    SNOVA_SALT = 17,          /* length of the salt */
    SNOVA_SIGNATURE = 18,     /* length of the signature */
    SNOVA_WORK = 19,          /* length of the work area */
    SNOVA_OUTPUT = 20,        /* length of the output */
    SNOVA_NOT_INVERTIBLE = 21, /* an A or B cannot be made invertible */
    SNOVA_COUNTS = 22,        /* packing: counts do not fit */
    SNOVA_ENTRY = 23,         /* an element above 15 */
    SNOVA_LINE = 30,          /* response files: a line is unfinished, or not empty, no comment and without " = " */
    SNOVA_ODD_DIGITS = 31,    /* an odd count of digits */
    SNOVA_NO_DIGIT = 32,      /* not a digit, or none in a number */
    SNOVA_FIELD = 33,         /* a field is unknown, repeated, missing or out of order */
    SNOVA_LARGE_NUMBER = 34,  /* a number above 4294967295 */
    SNOVA_BOOK_SIZE = 40,     /* exercise books: not whole blocks, or too many */
    SNOVA_BLOCK_CHECK = 41,   /* a block's check */
    SNOVA_BLOCK_FORM = 42,    /* a block's kind, zero byte, length or padding */
    SNOVA_BLOCK_TURN = 43,    /* a block out of turn */
    SNOVA_BLOCK_SPOILED = 44, /* in the list of a salvage: good, but of a spoiled exercise */
    SNOVA_BOOK_FIELDS = 45,   /* an empty field, a kind outside 1 to 7, a wrong order or lists that do not fit each other */
    SNOVA_BOOK_BLOCKS = 46    /* too many blocks */
};

/* The lengths that are the same for every set, in bytes. */
enum snova_length { SNOVA_SALT_BYTES = 16, SNOVA_BOOK_BLOCK_BYTES = 512 };

/* ---- lengths: the exact length in bytes of each buffer of a set (v, o, l); 0 for a set that is refused. Nothing is written. Stack 1024. */

size_t snova_public_bytes(size_t v, size_t o, size_t l);
size_t snova_abq_bytes(size_t v, size_t o, size_t l);
size_t snova_private_bytes(size_t v, size_t o, size_t l);
size_t snova_vinegar_bytes(size_t v, size_t o, size_t l);
size_t snova_target_bytes(size_t v, size_t o, size_t l);
size_t snova_key_bytes(size_t v, size_t o, size_t l);
size_t snova_signature_bytes(size_t v, size_t o, size_t l);
size_t snova_work_bytes(size_t v, size_t o, size_t l);

/* ---- keys, signatures, verdicts */

/* Key generation: 0 and the key is written, 10, 11, 13 or 20. Writes key. Stack 33792. */
SNOVA_MUST_USE uint32_t snova_keygen(size_t v, size_t o, size_t l,
    const uint8_t *public_stream, size_t public_stream_len,
    const uint8_t *private_stream, size_t private_stream_len,
    uint8_t *key, size_t key_len);

/* Signing, one try: 0 and the signature is written, 2 (redo), 10 to 15, 17, 19, 20 or 21. Writes signature, and zero into work. Stack 75776. */
SNOVA_MUST_USE uint32_t snova_sign(size_t v, size_t o, size_t l,
    const uint8_t *public_stream, size_t public_stream_len,
    const uint8_t *abq, size_t abq_len,
    const uint8_t *private_stream, size_t private_stream_len,
    const uint8_t *vinegar, size_t vinegar_len,
    const uint8_t *target, size_t target_len,
    const uint8_t *salt, size_t salt_len,
    uint8_t *work, size_t work_len,
    uint8_t *signature, size_t signature_len);

/* The verdict: 0 (accepted), 1 (not accepted), 10, 11, 12, 15, 16, 18 or 21. Writes nothing. Stack 36864. */
SNOVA_MUST_USE uint32_t snova_verify(size_t v, size_t o, size_t l,
    const uint8_t *public_stream, size_t public_stream_len,
    const uint8_t *abq, size_t abq_len,
    const uint8_t *target, size_t target_len,
    const uint8_t *key, size_t key_len,
    const uint8_t *signature, size_t signature_len);

/* Whether the last sixteen bytes of the signature are its salt: 0, 10 or 18. Writes nothing. Stack 1024. */
SNOVA_MUST_USE uint32_t snova_salt_status(size_t v, size_t o, size_t l,
    const uint8_t *signature, size_t signature_len);

/* ---- elements, two to a byte */

/* Packs elements: 0, 22 or 23. Writes bytes. Stack 1024. */
SNOVA_MUST_USE uint32_t snova_pack(const uint8_t *elements, size_t elements_len, uint8_t *bytes, size_t bytes_len);

/* Unpacks as many elements as there is room for: 0 or 22. Writes elements. Stack 1024. */
SNOVA_MUST_USE uint32_t snova_unpack(const uint8_t *bytes, size_t bytes_len, uint8_t *elements, size_t elements_len);

/* ---- response files */

/* Decodes hexadecimal digits of either case: 0, 32, 31 or 20. Writes bytes. Stack 1024. */
SNOVA_MUST_USE uint32_t snova_decode_hex(const uint8_t *digits, size_t digits_len, uint8_t *bytes, size_t bytes_len);

/* Whether a whole response file is of the format: 0, or 30 to 34. Writes nothing. Stack 1024. */
SNOVA_MUST_USE uint32_t snova_responses(const uint8_t *file, size_t file_len);

/* ---- exercise books */

/* The fields that the lists tell, as a book: 0, 45, 46 or 20. Writes book. Stack 1024. */
SNOVA_MUST_USE uint32_t snova_book_write(const uint16_t *exercises, size_t exercises_len,
    const uint8_t *kinds, size_t kinds_len,
    const size_t *sizes, size_t sizes_len,
    const uint8_t *payload, size_t payload_len,
    uint8_t *book, size_t book_len);

/* Whether a book is sound: 0, or 40 to 43. Writes nothing. Stack 1024. */
SNOVA_MUST_USE uint32_t snova_book_read(const uint8_t *book, size_t book_len);

/* The field that begins at a block: 0 and exercise, kind, size and the block after it; 1 no further field; 40 to 43; 20 (numbers_len is not 4). Writes numbers. Stack 1024. */
SNOVA_MUST_USE uint32_t snova_book_field(const uint8_t *book, size_t book_len, size_t block,
    uint64_t *numbers, size_t numbers_len);

/* The bytes of the field that begins at a block: 0, 40 to 43, or 20. Writes output. Stack 1024. */
SNOVA_MUST_USE uint32_t snova_book_payload(const uint8_t *book, size_t book_len, size_t block,
    uint8_t *output, size_t output_len);

/* The salvage of a bad card: 0 and the count of kept blocks, 40 or 20. Writes output, list (a number for each old block) and kept. Stack 66560. */
SNOVA_MUST_USE uint32_t snova_book_salvage(const uint8_t *book, size_t book_len,
    uint8_t *output, size_t output_len,
    uint8_t *list, size_t list_len,
    size_t *kept);

#ifdef __cplusplus
}
#endif

#endif
