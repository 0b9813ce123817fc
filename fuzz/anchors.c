/* An anchors.dat: an input is its bytes between the magic and the checksum, which are put right. What is read is
 * written, read and written again. */
#include "common.h"

bool target_anchors(const uint8_t *bytes, size_t length);

int LLVMFuzzerTestOneInput(const uint8_t *bytes, size_t length) {
    uint8_t *file = malloc(length + 36);
    memcpy(file, "\xf9\xbe\xb4\xd9", 4);
    if (length)
        memcpy(file + 4, bytes, length);
    checksum(file, length + 4, file + length + 4);
    target_anchors(file, length + 36);
    free(file);
    return 0;
}
