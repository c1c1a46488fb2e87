/* Formats a text under the default policy. After "python3 tools/static_library.py", these commands in the root of the repository
 * compile and run it:
 *
 *     cc -Iinclude include/example.c -Ltarget/staticlib -ltilghorz -o example
 *     ./example
 */
#include <stdio.h>
#include <string.h>

#include "tilghorz.h"

int main(void)
{
    const char *text = "1\xEF\xB8\x8E \xE2\x9D\xA4";
    uint8_t policy[TILGHORZ_POLICY_BYTES];
    uint8_t out[64]; /* 5/2 times the length of the text is enough under the default policy, and 4 times under any */
    uint64_t word;

    tilghorz_default_policy(policy, sizeof policy);
    word = tilghorz_format((const uint8_t *)text, strlen(text), policy, sizeof policy, out, sizeof out);
    switch (TILGHORZ_NUMBER(word)) {
    case TILGHORZ_DONE:
        printf("changed:");
        for (uint64_t i = 0; i < TILGHORZ_VALUE(word); i++)
            printf(" %02X", out[i]);
        printf("\n");
        return 0;
    case TILGHORZ_NOTHING_TO_DO:
        printf("unchanged\n");
        return 0;
    default:
        printf("refused %u\n", TILGHORZ_NUMBER(word));
        return 1;
    }
}
