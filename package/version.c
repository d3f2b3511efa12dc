/* The version of the library at run time. Beside the proved calls the libraries have this function alone. */
#include "fantanolive.h"

const char *fantanolive_version(void)
{
    return FANTANOLIVE_VERSION;
}
