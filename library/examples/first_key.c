/* Prints the first transaction key of the standard's samples. */
#include <dukpt.h>
#include <stdio.h>

int main(void)
{
    const uint8_t bdk[16] = {0x01, 0x23, 0x45, 0x67, 0x89, 0xAB, 0xCD, 0xEF,
                             0xFE, 0xDC, 0xBA, 0x98, 0x76, 0x54, 0x32, 0x10};
    const uint8_t ksn[10] = {0xFF, 0xFF, 0x98, 0x76, 0x54, 0x32, 0x10, 0xE0, 0x00, 0x01};
    uint8_t key[16];
    if (dukpt_derive(bdk, sizeof bdk, ksn, sizeof ksn, key, sizeof key) != DUKPT_OK)
        return 1;
    for (size_t at = 0; at < sizeof key; at++)
        printf("%02X", key[at]);
    putchar('\n');
    return 0;
}
