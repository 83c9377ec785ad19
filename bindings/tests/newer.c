/* A program of a later version, with a function that this one hasn't: over this library it ends when it is loaded, and not in the middle. */
#include "g3fax.h"
#include <stdio.h>

void g3_later(void);

int main(void)
{
    printf("begun\n");
    if (g3_version_number() == G3_VERSION_NUMBER) g3_later();
    return 0;
}
