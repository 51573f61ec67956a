/* The fuzzer's entry point for the harness that TARGET names. */

#include <stddef.h>
#include <stdint.h>

void TARGET(const uint8_t *data, size_t size);
int LLVMFuzzerTestOneInput(const uint8_t *data, size_t size);

int LLVMFuzzerTestOneInput(const uint8_t *data, size_t size)
{
    TARGET(data, size);
    return 0;
}
