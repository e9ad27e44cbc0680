/* Decodes each item of a file with libcbor, and prints how many there are. */
#include <cbor.h>
#include <stdio.h>
#include <stdlib.h>

int main(int count, char **words)
{
    FILE *file = count == 2 ? fopen(words[1], "rb") : NULL;
    if (!file || fseek(file, 0, SEEK_END))
        return 1;
    size_t length = ftell(file), at = 0, items = 0;
    unsigned char *bytes = malloc(length);
    rewind(file);
    if (!bytes || fread(bytes, 1, length, file) != length)
        return 1;
    while (at < length) {
        struct cbor_load_result result;
        cbor_item_t *item = cbor_load(bytes + at, length - at, &result);
        if (!item)
            return 1;
        cbor_decref(&item);
        at += result.read;
        items++;
    }
    printf("%zu\n", items);
    return 0;
}
