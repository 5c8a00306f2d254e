/* What the tests share: files, and a check that ends the program. */
#ifndef OCTETS_H
#define OCTETS_H

#include <stdint.h>
#include <stdio.h>
#include <stdlib.h>
#include <string.h>

#define CHECK(holds) \
    do { \
        if (!(holds)) { \
            fprintf(stderr, "%s:%d: not so: %s\n", __FILE__, __LINE__, #holds); \
            exit(1); \
        } \
    } while (0)

enum { MOST = 65536, NOW = 1300819379 };

typedef struct octets {
    uint8_t at[MOST];
    size_t len;
} octets;

/* What the file NAME.END holds. */
static inline octets *read_named(octets *file, const char *name, const char *end)
{
    char path[4096];
    CHECK(snprintf(path, sizeof path, "%s.%s", name, end) < (int)sizeof path);
    FILE *stream = fopen(path, "rb");
    CHECK(stream != NULL);
    file->len = fread(file->at, 1, MOST - 1, stream);
    fclose(stream);
    /* (it is searched as a text, and the file before it may have been longer) */
    memset(file->at + file->len, 0, MOST - file->len);
    return file;
}

/* Writes octets in base64url (RFC 4648, section 5) without padding, and gives how many characters these are. */
static inline size_t encode(const uint8_t *octets, size_t len, char *out)
{
    static const char characters[] = "ABCDEFGHIJKLMNOPQRSTUVWXYZabcdefghijklmnopqrstuvwxyz0123456789-_";
    size_t written = 0;
    for (size_t bit = 0; bit < 8 * len; bit += 6) {
        unsigned pair = (unsigned)octets[bit / 8] << 8 | (bit / 8 + 1 < len ? octets[bit / 8 + 1] : 0);
        out[written++] = characters[pair >> (10 - bit % 8) & 63];
    }
    return written;
}

/* Writes a key set of so many keys at `set`: the one key of `keys`, each time with other characters in the middle of the text of its
 * member, such as "\"n\":\"". */
static inline size_t other_keys(char *set, size_t room, octets *keys, const char *member, int count)
{
    static const char characters[] = "ABCDEFGHIJKLMNOPQRSTUVWXYZabcdef";
    char *key = strstr((char *)keys->at, "[{") + 1;
    size_t key_len = (size_t)(strstr(key, "}]") + 1 - key), len = (size_t)sprintf(set, "{\"keys\":[");
    char *changed = strstr(key, member) + strlen(member) + 20;
    for (int i = 0; i < count; i++) {
        CHECK(len + key_len + 3 < room);
        changed[0] = characters[i / 32];
        changed[1] = characters[i % 32];
        len += (size_t)sprintf(set + len, "%s%.*s", i == 0 ? "" : ",", (int)key_len, key);
    }
    return len + (size_t)sprintf(set + len, "]}");
}

#endif
