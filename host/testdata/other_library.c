/* For the test of the host: the library, but of another version or format. The linker puts these in the place of its
   own calls. */
#include <stdint.h>

uint32_t __wrap_caisson_version(void);
uint32_t __wrap_caisson_format(void);

uint32_t __wrap_caisson_version(void)
{
    return OTHER_VERSION;
}

uint32_t __wrap_caisson_format(void)
{
    return OTHER_FORMAT;
}
