// libgcrypt, nettle, libtomcrypt and Botan in the form of others.h, each where its macro is defined.
#include "others.h"

#ifdef WITH_GCRYPT
#include <gcrypt.h>

static gcry_cipher_hd_t gcrypt_large, gcrypt_small, gcrypt_now;

// A key of 24 bytes is not taken.
static bool gcrypt_set(const uint8_t *key, size_t length) {
    if (!gcrypt_large) {
        gcry_check_version(NULL);
        gcry_control(GCRYCTL_DISABLE_SECMEM, 0);
        gcry_control(GCRYCTL_INITIALIZATION_FINISHED, 0);
        gcry_cipher_open(&gcrypt_large, GCRY_CIPHER_TWOFISH, GCRY_CIPHER_MODE_ECB, 0);
        gcry_cipher_open(&gcrypt_small, GCRY_CIPHER_TWOFISH128, GCRY_CIPHER_MODE_ECB, 0);
    }
    if (length != 16 && length != 32) {
        return false;
    }
    gcrypt_now = length == 16 ? gcrypt_small : gcrypt_large;
    return gcry_cipher_setkey(gcrypt_now, key, length) == 0;
}

static void gcrypt_encipher(uint8_t *block) {
    gcry_cipher_encrypt(gcrypt_now, block, 16, NULL, 0);
}

static void gcrypt_decipher(uint8_t *block) {
    gcry_cipher_decrypt(gcrypt_now, block, 16, NULL, 0);
}
#endif

#if defined(WITH_NETTLE) || defined(WITH_TOMCRYPT) || defined(WITH_BOTAN)
static bool taken(size_t length) {
    return length == 16 || length == 24 || length == 32;
}
#endif

#ifdef WITH_NETTLE
#include <nettle/twofish.h>

static struct twofish_ctx nettle_now;

static bool nettle_set(const uint8_t *key, size_t length) {
    if (!taken(length)) {
        return false;
    }
    twofish_set_key(&nettle_now, length, key);
    return true;
}

static void nettle_encipher(uint8_t *block) {
    twofish_encrypt(&nettle_now, 16, block, block);
}

static void nettle_decipher(uint8_t *block) {
    twofish_decrypt(&nettle_now, 16, block, block);
}
#endif

#ifdef WITH_TOMCRYPT
#include <tomcrypt.h>

static symmetric_key tomcrypt_now;

static bool tomcrypt_set(const uint8_t *key, size_t length) {
    return taken(length) && twofish_setup(key, (int)length, 0, &tomcrypt_now) == CRYPT_OK;
}

static void tomcrypt_encipher(uint8_t *block) {
    twofish_ecb_encrypt(block, block, &tomcrypt_now);
}

static void tomcrypt_decipher(uint8_t *block) {
    twofish_ecb_decrypt(block, block, &tomcrypt_now);
}
#endif

#ifdef WITH_BOTAN
#include <botan/ffi.h>

static botan_block_cipher_t botan_now;

static bool botan_set(const uint8_t *key, size_t length) {
    if (!botan_now && botan_block_cipher_init(&botan_now, "Twofish") != 0) {
        return false;
    }
    return taken(length) && botan_block_cipher_set_key(botan_now, key, length) == 0;
}

static void botan_encipher(uint8_t *block) {
    botan_block_cipher_encrypt_blocks(botan_now, block, block, 1);
}

static void botan_decipher(uint8_t *block) {
    botan_block_cipher_decrypt_blocks(botan_now, block, block, 1);
}
#endif

const other others[] = {
#ifdef WITH_GCRYPT
    {"libgcrypt", gcrypt_set, gcrypt_encipher, gcrypt_decipher},
#endif
#ifdef WITH_NETTLE
    {"nettle", nettle_set, nettle_encipher, nettle_decipher},
#endif
#ifdef WITH_TOMCRYPT
    {"libtomcrypt", tomcrypt_set, tomcrypt_encipher, tomcrypt_decipher},
#endif
#ifdef WITH_BOTAN
    {"Botan", botan_set, botan_encipher, botan_decipher},
#endif
#ifdef WITH_CRYPTOPP
    {"Crypto++", cryptopp_set, cryptopp_encipher, cryptopp_decipher},
#endif
    {NULL, NULL, NULL, NULL},
};
