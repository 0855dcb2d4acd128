#include "plain_check.h"

#include <string.h>

/* A key with the text before its value, and the kind of the value: N, a number, or H, data. */
struct key {
    const char *text;
    size_t size;
    char kind;
};

#define KEY(text, kind) { text, sizeof(text) - 1, kind }

static const struct form {
    size_t keys;
    struct key key[3];
} forms[] = {
    { 2, { KEY("op=load core=", 'N'), KEY(" line=", 'N') } },
    { 2, { KEY("op=evict core=", 'N'), KEY(" line=", 'N') } },
    { 3, { KEY("op=store core=", 'N'), KEY(" line=", 'N'), KEY(" data=", 'H') } },
    { 1, { KEY("op=fence core=", 'N') } },
    { 1, { KEY("op=serve core=", 'N') } },
    { 1, { KEY("op=receive core=", 'N') } },
    { 2, { KEY("op=advance core=", 'N'), KEY(" by=", 'N') } },
    { 1, { KEY("op=yield line=", 'N') } },
    { 1, { KEY("op=take line=", 'N') } },
};

struct value {
    const uint8_t *at;
    size_t size;
};

/* Whether the line has the form, whatever its values, which are found on the way. */
static int has_form(const struct form *form, const uint8_t *line, size_t len, struct value *value)
{
    size_t at = 0;
    for (size_t k = 0; k < form->keys; k++) {
        const struct key *key = &form->key[k];
        if (len - at < key->size || memcmp(line + at, key->text, key->size) != 0)
            return 0;
        at += key->size;
        value[k].at = line + at;
        while (at < len && line[at] != ' ')
            at++;
        value[k].size = (size_t)(line + at - value[k].at);
    }
    return at == len;
}

static int is_number(const uint8_t *v, size_t size)
{
    uint64_t n = 0;
    if (size == 0 || (size > 1 && v[0] == '0'))
        return 0;
    for (size_t i = 0; i < size; i++) {
        if (v[i] < '0' || v[i] > '9')
            return 0;
        n = n * 10 + (uint64_t)(v[i] - '0');
        if (n > 4294967295u)
            return 0;
    }
    return 1;
}

static int is_data(const uint8_t *v, size_t size)
{
    if (size == 0 || size % 2 != 0)
        return 0;
    for (size_t i = 0; i < size; i++)
        if (!((v[i] >= '0' && v[i] <= '9') || (v[i] >= 'a' && v[i] <= 'f')))
            return 0;
    return 1;
}

uint32_t plain_check_line(const uint8_t *line, size_t len)
{
    if (len > 200)
        return 10;
    for (size_t f = 0; f < sizeof forms / sizeof *forms; f++) {
        struct value value[3];
        if (!has_form(&forms[f], line, len, value))
            continue;
        for (size_t k = 0; k < forms[f].keys; k++)
            if (forms[f].key[k].kind == 'N' && !is_number(value[k].at, value[k].size))
                return 12;
        for (size_t k = 0; k < forms[f].keys; k++)
            if (forms[f].key[k].kind == 'H' && !is_data(value[k].at, value[k].size))
                return 13;
        return 0;
    }
    return 11;
}
