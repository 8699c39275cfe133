/* A caller of libsnova.a in C, which is also C++: lengths, a key, a signature with the redo, the verdict.
 *
 *     cc -I host/include host/examples/caller.c target/staticlib/libsnova.a -o caller && ./caller
 *
 * Hashing is the caller's. Here a small generator stands in for the hash, so that the example needs nothing else: it is no source of secrets. */
#include <snova.h>

#include <stdio.h>
#include <stdlib.h>
#include <string.h>

/* splitmix64: the next eight bytes, of which one is used. */
static uint64_t state = 7;

static uint8_t next_byte(void) {
    uint64_t z;
    state += UINT64_C(0x9E3779B97F4A7C15);
    z = state;
    z = (z ^ (z >> 30)) * UINT64_C(0xBF58476D1CE4E5B9);
    z = (z ^ (z >> 27)) * UINT64_C(0x94D049BB133111EB);
    return (uint8_t)((z ^ (z >> 31)) >> 56);
}

static void fill(uint8_t *bytes, size_t length) {
    size_t at;
    for (at = 0; at < length; at++) bytes[at] = next_byte();
}

/* A buffer of zeros, or the end of the program. */
static uint8_t *buffer(size_t length) {
    uint8_t *bytes = (uint8_t *)calloc(length, 1);
    if (bytes == NULL) {
        fprintf(stderr, "caller: no memory\n");
        exit(74);
    }
    return bytes;
}

/* An answer that this program does not expect ends it. */
static void expect(const char *what, uint32_t answer, uint32_t expected) {
    printf("%s: %u\n", what, (unsigned)answer);
    if (answer != expected) exit((int)answer == 0 ? 1 : (int)answer);
}

int main(void) {
    const size_t v = 24, o = 5, l = 4;
    const size_t public_len = snova_public_bytes(v, o, l), abq_len = snova_abq_bytes(v, o, l);
    const size_t private_len = snova_private_bytes(v, o, l), vinegar_len = snova_vinegar_bytes(v, o, l);
    const size_t target_len = snova_target_bytes(v, o, l), key_len = snova_key_bytes(v, o, l);
    const size_t signature_len = snova_signature_bytes(v, o, l), work_len = snova_work_bytes(v, o, l);
    uint8_t *public_stream, *abq, *private_stream, *vinegar, *target, *key, *work, *signature;
    uint8_t salt[SNOVA_SALT_BYTES];
    uint32_t answer;
    int tries = 0;

    if (public_len == 0) {
        printf("the set is refused\n");
        return SNOVA_SET;
    }
    public_stream = buffer(public_len);
    abq = buffer(abq_len);
    private_stream = buffer(private_len);
    vinegar = buffer(vinegar_len);
    target = buffer(target_len);
    key = buffer(key_len);
    work = buffer(work_len);
    signature = buffer(signature_len);
    fill(public_stream, public_len);
    fill(abq, abq_len);
    fill(private_stream, private_len);
    fill(target, target_len);
    fill(salt, sizeof salt);

    expect("key", snova_keygen(v, o, l, public_stream, public_len, private_stream, private_len, key, key_len), SNOVA_DONE);

    /* The first vinegar is zero, which is always a redo: so the loop is seen to try again. */
    do {
        if (tries > 0) fill(vinegar, vinegar_len);
        tries++;
        answer = snova_sign(v, o, l, public_stream, public_len, abq, abq_len, private_stream, private_len,
            vinegar, vinegar_len, target, target_len, salt, sizeof salt, work, work_len, signature, signature_len);
        printf("signing, try %d: %u\n", tries, (unsigned)answer);
    } while (answer == SNOVA_REDO && tries < 255);
    expect("signature", answer, SNOVA_DONE);

    expect("salt", snova_salt_status(v, o, l, signature, signature_len), SNOVA_DONE);
    if (memcmp(signature + signature_len - sizeof salt, salt, sizeof salt) != 0) return 1;
    expect("verdict", snova_verify(v, o, l, public_stream, public_len, abq, abq_len, target, target_len,
        key, key_len, signature, signature_len), SNOVA_ACCEPTED);
    signature[0] ^= 1;
    expect("verdict on one changed bit", snova_verify(v, o, l, public_stream, public_len, abq, abq_len,
        target, target_len, key, key_len, signature, signature_len), SNOVA_NOT_ACCEPTED);
    expect("verdict on one byte less", snova_verify(v, o, l, public_stream, public_len, abq, abq_len,
        target, target_len, key, key_len, signature, signature_len - 1), SNOVA_SIGNATURE);

    free(public_stream);
    free(abq);
    free(private_stream);
    free(vinegar);
    free(target);
    free(key);
    free(work);
    free(signature);
    return 0;
}
