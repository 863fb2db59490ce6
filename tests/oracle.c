/* oracle.c: the image that `hf seal` should make, worked out with libgcrypt alone: its CBC over its Twofish.

   usage: oracle KEY PAGES BANKS ROM >IMAGE      KEY is the hex text of 1 to 16 or 25 to 32 bytes (libgcrypt has no Twofish of 24). Zeros follow
   the key up to 16 or 32 bytes. */

#include <gcrypt.h>
#include <stdio.h>
#include <stdlib.h>
#include <string.h>

enum { PAGE = 256, RECORD = 272 };

static void want(int right, const char *what)
{
    if (right)
        return;
    fprintf(stderr, "oracle: %s\n", what);
    exit(2);
}

static gcry_cipher_hd_t cipher_of(const char *text)
{
    unsigned char key[32] = {0};
    size_t length = strlen(text) / 2, size = length <= 16 ? 16 : 32;
    gcry_cipher_hd_t cipher;
    want((length >= 1 && length <= 16) || (length >= 25 && length <= 32), "the key is not 1 to 16 or 25 to 32 bytes");
    for (size_t i = 0; i < length; i++)
        want(sscanf(text + 2 * i, "%2hhx", &key[i]) == 1, "the key is no hex text");
    want(gcry_check_version(NULL) != NULL, "no libgcrypt");
    want(gcry_cipher_open(&cipher, size == 16 ? GCRY_CIPHER_TWOFISH128 : GCRY_CIPHER_TWOFISH, GCRY_CIPHER_MODE_CBC, 0) == 0, "no Twofish");
    want(gcry_cipher_setkey(cipher, key, size) == 0, "the key is not taken");
    return cipher;
}

int main(int count, char **words)
{
    want(count == 5, "usage: oracle KEY PAGES BANKS ROM");
    gcry_cipher_hd_t cipher = cipher_of(words[1]);
    int pages = atoi(words[2]), banks = atoi(words[3]);
    FILE *rom = fopen(words[4], "rb");
    want(rom != NULL, "no ROM");
    for (int slot = 0; slot < pages * banks; slot++) {
        unsigned char record[RECORD] = {(unsigned char)(slot / pages), (unsigned char)(slot % pages)};
        memset(record + RECORD - PAGE, 0xff, PAGE); /* what the ROM does not reach reads as an erased part */
        want(fread(record + RECORD - PAGE, 1, PAGE, rom) == PAGE || feof(rom), "the ROM cannot be read");
        want(gcry_cipher_reset(cipher) == 0 && gcry_cipher_encrypt(cipher, record, RECORD, NULL, 0) == 0, "nothing is enciphered");
        want(fwrite(record, 1, RECORD, stdout) == RECORD, "nothing is written");
    }
    gcry_cipher_close(cipher);
    want(fclose(stdout) == 0, "nothing is written");
    return 0;
}
