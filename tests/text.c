/* Prints the entries of fantanolive_text.h as the lookups give them, for every number from 0 to 99: a line `refusal N` or
 * `code N`, with a remark where a code has an entry and no bit in the masks of fantanolive.h, or a bit and no entry.
 * Status 1 where an entry has another number or an empty string. */
#include <stdio.h>

#include "fantanolive.h"
#include "fantanolive_text.h"

static int is_whole(const struct fantanolive_text *text, unsigned number)
{
    return text->number == number && text->wrong[0] != '\0' && text->where[0] != '\0' && text->mend[0] != '\0';
}

int main(void)
{
    unsigned number;
    int whole = 1;

    for (number = 0; number < 100; number++) {
        const struct fantanolive_text *refusal = fantanolive_refusal_text(number);
        const struct fantanolive_text *code = fantanolive_code_text(number);
        int judged = number < 64 && FANTANOLIVE_HAS_CODE(FANTANOLIVE_ERRORS | FANTANOLIVE_WARNINGS, number);

        if (refusal != NULL) printf("refusal %u\n", number);
        if (code != NULL || judged)
            printf("code %u%s%s\n", number, code == NULL ? " without a text" : "", judged ? "" : " of no verdict");
        if (refusal != NULL && !is_whole(refusal, number)) whole = 0;
        if (code != NULL && !is_whole(code, number)) whole = 0;
    }
    return whole ? 0 : 1;
}
