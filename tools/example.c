/* example.c: a host in C that seals a page, reads from it, patches it, and reads again. */

#include <hingefodder_text.h>
#include <stdio.h>

static uint8_t image[HF_IMAGE(64, 4)]; /* four banks of 64 pages */

int main(void)
{
    const uint8_t key[] = "sixteen byte key", plain[] = "page 2 of bank 3", patched[] = {'4'};
    uint8_t out[16];

    hf_answer answer = hf_seal(key, 16, 64, 4, image, sizeof image, 3, 2, plain, 16);
    printf("seal: %s, %u blocks\n", hf_text(answer.number), answer.count);
    answer = hf_read(key, 16, 64, 4, image, sizeof image, 3, 0x0200, out, 16);
    printf("read: %s, \"%.16s\"\n", hf_text(answer.number), (const char *)out);
    answer = hf_patch(key, 16, 64, 4, image, sizeof image, 3, 0x0205, patched, 1);
    printf("patch: %s, %u blocks\n", hf_text(answer.number), answer.count);
    answer = hf_read(key, 16, 64, 4, image, sizeof image, 3, 0x0200, out, 16);
    printf("read: %s, \"%.16s\"\n", hf_text(answer.number), (const char *)out);
    return answer.number == HF_DONE ? 0 : 1;
}
