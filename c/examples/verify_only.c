/* verify: an image of firmware, on a board that only verifies, without a heap or an operating system. main returns 0 if
 * the release key signed this image under this context, and else 1. */
#include <mldsa.h>

#include "release_key.h"
#include "image.h"
#include "image_sig.h"

/* The context of `mlsign sign -c`, without the 0 at its end. */
#define CONTEXT "acme-firmware-v1"

int main(void)
{
    return mldsa65_verify(release_key, sizeof release_key, image, sizeof image, (const uint8_t *)CONTEXT,
                          sizeof CONTEXT - 1, image_sig, sizeof image_sig) == MLDSA_YES ? 0 : 1;
}
