/* Prints the version of the header, by its parts and as its number, and the archive's number. */
#include <stdio.h>

#include "naustvri.h"

#if NAUSTVRI_VERSION / 10000 != NAUSTVRI_VERSION_MAJOR
#error "the preprocessor reads another version"
#endif

int main(void)
{
    printf("%d.%d.%d %u %u\n", NAUSTVRI_VERSION_MAJOR, NAUSTVRI_VERSION_MINOR, NAUSTVRI_VERSION_PATCH, NAUSTVRI_VERSION,
           naustvri_version());
    return 0;
}
