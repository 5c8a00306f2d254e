/* openssl HASH ACCEPTED: the least processor time of one EVP_DigestVerify of OpenSSL, with its context, in nanoseconds. HASH is the name of a function that gives one, or -. On standard
 * input are the public key in DER, the signature, and the signed octets, each behind its length as a line of digits. It ends with 1 where OpenSSL accepts other than ACCEPTED, 1 or 0, says. The library is
 * opened by its name, so that no headers of it are needed. bench/run compiles it. */
#include <dlfcn.h>
#include <time.h>

#include "octets.h"

enum { ROUNDS = 40, CALLS = 100 };

static void *library;

/* The function of this name. */
static void *named(const char *name)
{
    void *found = dlsym(library, name);
    CHECK(found != NULL);
    return found;
}

static size_t part(unsigned char *into)
{
    size_t len;
    CHECK(scanf("%zu", &len) == 1 && getchar() == '\n' && len <= MOST);
    CHECK(fread(into, 1, len, stdin) == len);
    return len;
}

static double now(void)
{
    struct timespec at;
    clock_gettime(CLOCK_PROCESS_CPUTIME_ID, &at);
    return 1e9 * (double)at.tv_sec + (double)at.tv_nsec;
}

int main(int count, char **words)
{
    static unsigned char der[MOST], signature[MOST], message[MOST];
    CHECK(count == 3);
    library = dlopen("libcrypto.so.3", RTLD_NOW);
    CHECK(library != NULL);
    void *(*read_key)(void **, const unsigned char **, long) = named("d2i_PUBKEY");
    void *(*context_new)(void) = named("EVP_MD_CTX_new");
    void (*context_free)(void *) = named("EVP_MD_CTX_free");
    int (*begin)(void *, void *, const void *, void *, void *) = named("EVP_DigestVerifyInit");
    int (*verify)(void *, const unsigned char *, size_t, const unsigned char *, size_t) = named("EVP_DigestVerify");
    const void *(*hash)(void) = strcmp(words[1], "-") == 0 ? NULL : named(words[1]);
    const unsigned char *at = der;
    size_t der_len = part(der), signature_len = part(signature), message_len = part(message);
    void *key = read_key(NULL, &at, (long)der_len);
    CHECK(key != NULL);
    double least = 1e18;
    for (int round = 0; round < ROUNDS; round++) {
        double begun = now();
        for (int call = 0; call < CALLS; call++) {
            void *context = context_new();
            CHECK(begin(context, NULL, hash ? hash() : NULL, NULL, key) == 1);
            if ((verify(context, signature, signature_len, message, message_len) == 1) != (words[2][0] == '1'))
                return 1;
            context_free(context);
        }
        double took = (now() - begun) / CALLS;
        least = took < least ? took : least;
    }
    printf("%.0f\n", least);
    return 0;
}
