/* Asks libjwt: libjwt QUESTIONS (Debian: libjwt-dev, of version 1.10) */
#include <errno.h>
#include <jwt.h>
#include <stdio.h>
#include <stdlib.h>
#include <string.h>

enum { FIELDS = 9, LONGEST = 1 << 21 };

/* The octets of a field, with a zero behind them; the caller frees them. */
static char *octets_of(const char *word, size_t *length)
{
    size_t count = strcmp(word, "-") == 0 ? 0 : strlen(word) / 2;
    char *octets = calloc(count + 1, 1);
    if (octets == NULL)
        abort();
    for (size_t i = 0; i < count; i++) {
        unsigned octet;
        if (sscanf(word + 2 * i, "%2x", &octet) != 1)
            abort();
        octets[i] = (char)octet;
    }
    *length = count;
    return octets;
}

static int is_among(const char *algs, const char *alg)
{
    size_t length = strlen(alg);
    for (const char *at = strstr(algs, alg); at != NULL; at = strstr(at + 1, alg))
        if ((at == algs || at[-1] == ',') && (at[length] == ',' || at[length] == '\0'))
            return 1;
    return 0;
}

/* Whether a claim is the text that is asked for, where one is asked for. */
static int is_as_asked(jwt_t *token, const char *claim, const char *word)
{
    size_t length;
    char *wanted = octets_of(word, &length);
    const char *found = jwt_get_grant(token, claim);
    int is_so = strcmp(word, "-") == 0 || (found != NULL && strcmp(found, wanted) == 0);
    free(wanted);
    return is_so;
}

/* Whether the dates that are there allow this moment. */
static int is_in_time(jwt_t *token)
{
    long now = (long)strtoll(getenv("MOMENT"), NULL, 10);
    errno = 0;
    long until = jwt_get_grant_int(token, "exp");
    if (errno == 0 && now >= until)
        return 0;
    errno = 0;
    long from = jwt_get_grant_int(token, "nbf");
    return errno != 0 || now >= from;
}

static int are_there(jwt_t *token, char *required)
{
    for (char *rest = NULL, *word = strtok_r(required, ",", &rest); word != NULL; word = strtok_r(NULL, ",", &rest)) {
        size_t length;
        char *name = octets_of(word, &length);
        char *value = length == 0 ? NULL : jwt_get_grants_json(token, name);
        int is_there = length == 0 || value != NULL;
        free(value);
        free(name);
        if (!is_there)
            return 0;
    }
    return 1;
}

/* What is said of a token that was decoded. */
static const char *said_of(jwt_t *token, char **fields)
{
    const char *alg = jwt_alg_str(jwt_get_alg(token));
    if (alg == NULL || !is_among(fields[1], alg))
        return "another algorithm";
    if (!is_as_asked(token, "iss", fields[4]) || !is_as_asked(token, "aud", fields[5]))
        return "another issuer or audience";
    if (!is_in_time(token))
        return "a date";
    return are_there(token, fields[6]) ? "accepted" : "a claim is missing";
}

int main(int count, char **words)
{
    FILE *file = count == 2 ? fopen(words[1], "r") : NULL;
    char *line = malloc(LONGEST);
    if (file == NULL || line == NULL)
        return 1;
    while (fgets(line, LONGEST, file) != NULL) {
        char *fields[FIELDS], *rest = NULL;
        line[strcspn(line, "\n")] = '\0';
        for (int i = 0; i < FIELDS; i++)
            fields[i] = strtok_r(i == 0 ? line : NULL, "\t", &rest);
        size_t key_length, length;
        char *key = octets_of(fields[3], &key_length), *text = octets_of(fields[8], &length);
        jwt_t *token = NULL;
        int status = jwt_decode(&token, text, (unsigned char *)key, (int)key_length + (strcmp(fields[2], "pem") == 0));
        printf("%s\t%s\n", fields[0], status != 0 ? "jwt_decode" : said_of(token, fields));
        jwt_free(token);
        free(key);
        free(text);
    }
    fclose(file);
    free(line);
    return 0;
}
