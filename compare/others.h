// The Twofish of other libraries, all in one form: a key is set, and then blocks are enciphered and deciphered where they lie.
#ifndef OTHERS_H
#define OTHERS_H

#include <stdbool.h>
#include <stddef.h>
#include <stdint.h>

#ifdef __cplusplus
extern "C" {
#endif

typedef struct {
    const char *name;
    // Whether a key of this length is taken; it then stands for the blocks that follow.
    bool (*set)(const uint8_t *key, size_t length);
    void (*encipher)(uint8_t *block);
    void (*decipher)(uint8_t *block);
} other;

// Those that were installed when this was compiled, and after them one without a name.
extern const other others[];

// Those of Crypto++, which is C++ and stands in others.cc. It sets a key for each direction by itself.
bool cryptopp_set(const uint8_t *key, size_t length);
void cryptopp_encipher(uint8_t *block);
void cryptopp_decipher(uint8_t *block);

#ifdef __cplusplus
}
#endif

#endif
