// Crypto++ in the form of others.h.
#include "others.h"

#include <cryptopp/twofish.h>

static CryptoPP::Twofish::Encryption forth;
static CryptoPP::Twofish::Decryption back;

bool cryptopp_set(const uint8_t *key, size_t length) {
    if (length != 16 && length != 24 && length != 32) {
        return false;
    }
    forth.SetKey(key, length);
    back.SetKey(key, length);
    return true;
}

void cryptopp_encipher(uint8_t *block) {
    forth.ProcessBlock(block);
}

void cryptopp_decipher(uint8_t *block) {
    back.ProcessBlock(block);
}
