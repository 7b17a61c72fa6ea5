/* Random hashes: `hashes SEED` prints the key, and for each input its bytes and its hash. */
#include "check.h"

static void hex(const uint8_t *bytes, size_t length)
{
    for (size_t k = 0; k < length; k++)
        printf("%02x", bytes[k]);
}

int main(int words, char **word)
{
    uint8_t key[40], input[36];
    CHECK(words == 2);
    chance_state = strtoull(word[1], NULL, 10) * 2 + 1;
    for (int k = 0; k < 40; k++)
        key[k] = (uint8_t)chance();
    hex(key, sizeof key);
    printf("\n");
    for (size_t length = 1; length <= 36; length++) {
        for (int again = 0; again < 10; again++) {
            uint32_t hash = 0;
            for (size_t k = 0; k < length; k++)
                input[k] = (uint8_t)chance();
            ANSWERS(NIC_DONE, nic_hash(key, input, length, &hash));
            hex(input, length);
            printf(" 0x%08x\n", (unsigned)hash);
        }
    }
    return 0;
}
