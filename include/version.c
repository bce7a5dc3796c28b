/* The version of the library. It has no proof: it returns a constant. */
#include "tlut_host.h"

const char *tlut_version(void)
{
    return TLUT_VERSION;
}
