/*
 * Asks a store about the first certificate of a PEM chain, by its timestamps and the certificate behind it:
 *
 *     ask STORE CHAIN.pem
 *
 * prints the answer, with the field and its offset where the store's layout is broken. The status is 0 for good, and
 * else the number of the answer (clubcard.h): 4 for revoked. Where a file can't be read, or holds no two certificates,
 * it is 1.
 */
#include "der.h"
#include "opened.h"

/* Asks by the two certificates. The answer is 0 where one isn't there. */
static uint32_t ask(const opened *store, X509 *leaf, X509 *issuer) {
    bytes cert = der_of(leaf), issuer_cert = der_of(issuer);
    uint32_t answer = 0;
    if (cert.data && issuer_cert.data) {
        answer = clubcard_ask_cert(store->file.data, store->file.len, store->index, store->facts.index_len, cert.data,
                                   cert.len, issuer_cert.data, issuer_cert.len);
        printf("%s\n", clubcard_strerror(answer));
    }
    OPENSSL_free(cert.data);
    OPENSSL_free(issuer_cert.data);
    return answer;
}

int main(int argc, char **argv) {
    if (argc != 3 || clubcard_interface() != CLUBCARD_INTERFACE) {
        fprintf(stderr, "usage: ask STORE CHAIN.pem\n");
        return 1;
    }
    opened store;
    uint32_t answer = open_store(&store, argv[1]);
    if (answer != CLUBCARD_DONE) {
        const char *field = clubcard_field_name(store.facts.field);
        printf(*field ? "the store isn't opened: %s, %s at %llu\n" : "the store isn't opened: %s\n",
               clubcard_strerror(answer), field, (unsigned long long)store.facts.at);
        return (int)answer;
    }
    BIO *chain = BIO_new_file(argv[2], "r");
    X509 *leaf = chain ? PEM_read_bio_X509(chain, NULL, NULL, NULL) : NULL;
    X509 *issuer = leaf ? PEM_read_bio_X509(chain, NULL, NULL, NULL) : NULL;
    answer = ask(&store, leaf, issuer);
    if (!answer) fprintf(stderr, "%s holds no certificate and its issuer's\n", argv[2]);
    X509_free(leaf);
    X509_free(issuer);
    BIO_free(chain);
    close_store(&store);
    return answer == CLUBCARD_GOOD ? 0 : answer ? (int)answer : 1;
}
