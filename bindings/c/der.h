/* What the examples with OpenSSL share: a certificate in DER. */
#ifndef DER_H
#define DER_H

#include <openssl/pem.h>
#include <openssl/x509.h>
#include <stddef.h>
#include <stdint.h>

/* Bytes of OpenSSL's heap. */
typedef struct bytes {
    uint8_t *data;
    size_t len;
} bytes;

/* A certificate in DER; no data where there is none, or no memory. */
static bytes der_of(X509 *cert) {
    bytes b = {NULL, 0};
    int len = cert ? i2d_X509(cert, &b.data) : -1;
    if (len > 0) b.len = (size_t)len;
    return b;
}

#endif
