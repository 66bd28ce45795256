/* What libFuzzer calls. TARGET is one of the functions of lib.rt.in. */
#include <stddef.h>
#include <stdint.h>

void TARGET(const uint8_t *bytes, size_t length);

int LLVMFuzzerTestOneInput(const uint8_t *bytes, size_t length)
{
    TARGET(bytes, length);
    return 0;
}
