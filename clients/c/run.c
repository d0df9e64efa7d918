/* run CHANNEL KEYS BLOCK..: prints the lines of `fabcommit run`, the signatures checked by the library. */
#include "fabcommit.h"
#include <inttypes.h>
#include <stdio.h>
#include <stdlib.h>

struct bytes { uint8_t *at; size_t len; };

static struct bytes read_file(const char *path)
{
    FILE *file = fopen(path, "rb");
    if (!file || fseek(file, 0, SEEK_END)) { perror(path); exit(2); }
    struct bytes bytes = {0, (size_t)ftell(file)};
    rewind(file);
    bytes.at = malloc(bytes.len + 1);
    if (!bytes.at || fread(bytes.at, 1, bytes.len, file) != bytes.len) { perror(path); exit(2); }
    fclose(file);
    return bytes;
}

static void refused(int place, uint32_t code, const fabcommit_receipt *receipt)
{
    printf("refused %d C%" PRIu32, place, code == FABCOMMIT_OLD_VERSION ? 8 : code);
    if (code == FABCOMMIT_MALFORMED) printf(" B%" PRIu64, receipt->got);
    if (code == FABCOMMIT_WRONG_NUMBER) printf(" want %" PRIu64 " got %" PRIu64, receipt->number, receipt->got);
    printf("\n");
}

static int accepted(fabcommit_handle *handle, const fabcommit_receipt *receipt)
{
    uint8_t *flags = malloc(receipt->flags + 1);
    size_t len = 0;
    if (!flags || fabcommit_flags(handle, receipt->number, flags, receipt->flags, &len)) return 2;
    printf("accepted %" PRIu64 " ", receipt->number);
    for (int i = 0; i < 32; i++) printf("%02x", receipt->header_hash[i]);
    for (size_t i = 0; i < len; i++) printf(" %d", flags[i]);
    printf("\n");
    free(flags);
    return 0;
}

int main(int argc, char **argv)
{
    if (argc < 3) { fprintf(stderr, "run CHANNEL KEYS BLOCK..\n"); return 2; }
    fabcommit_version_numbers versions;
    fabcommit_versions(&versions);
    if (versions.interface != FABCOMMIT_INTERFACE) { fprintf(stderr, "another interface\n"); return 2; }
    struct bytes channel = read_file(argv[1]), keys = read_file(argv[2]);
    fabcommit_handle handle = {0};
    uint32_t code = fabcommit_open(&handle, channel.at, channel.len, keys.at, keys.len);
    free(channel.at);
    free(keys.at);
    if (code) { fprintf(stderr, "not opened: code %" PRIu32 "\n", code); return 2; }
    int status = 0;
    for (int i = 3; i < argc; i++) {
        struct bytes block = read_file(argv[i]);
        fabcommit_receipt receipt = {0};
        code = fabcommit_submit(&handle, block.at, block.len, &receipt);
        free(block.at);
        if (code == FABCOMMIT_MEMORY) { status = 2; break; }
        if (code) { refused(i - 2, code, &receipt); status = 1; } else if ((status |= accepted(&handle, &receipt)) & 2) break;
    }
    fabcommit_close(&handle);
    return status;
}
