/* Packs a text with zlib and unpacks it, and answers its checksum. */
#include <stdint.h>
#include <string.h>
#include <zlib.h>

enum { SIZE = 100000 };

static unsigned char text[SIZE], packed[SIZE + 1000], unpacked[SIZE];

static void fill(unsigned char *bytes, unsigned count)
{
    uint32_t state = 1;

    for (unsigned i = 0; i < count; i++) {
        state = state * 1103515245 + 12345;
        bytes[i] = "the quick brown fox "[(state >> 16) % 20 * (i % 7 != 0)];
    }
}

__attribute__((export_name("run"))) unsigned run(void)
{
    uLongf packed_size = sizeof packed, size = sizeof unpacked;

    fill(text, SIZE);
    if (compress2(packed, &packed_size, text, SIZE, 9) != Z_OK)
        return 1;
    if (uncompress(unpacked, &size, packed, packed_size) != Z_OK)
        return 2;
    if (size != SIZE || memcmp(text, unpacked, SIZE) != 0)
        return 3;
    return crc32(0, unpacked, size);
}
