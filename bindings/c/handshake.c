/*
 * A TLS client that asks a store inside OpenSSL's verification, so that a handshake with a revoked certificate fails:
 *
 *     handshake STORE CA.pem CHAIN.pem KEY.pem [CHAIN.pem KEY.pem ..]
 *
 * It opens the store once. Then for each pair of CHAIN.pem and KEY.pem it starts a server with them on the loopback
 * address, connects to it with CA.pem as the root that it trusts, says how the handshake went, and ends the server. The
 * status is 0 where each handshake was done, 4 where one failed for a revoked certificate, and else 1.
 *
 * Resumed sessions: where a client resumes a TLS session, no certificate is sent and no verify callback runs. What the
 * store said when the session began is all that was ever asked: a certificate that is revoked since stays accepted
 * until the session ends, which may be a week later (RFC 8446, 4.6.1). OpenSSL's client resumes only a session that
 * the program hands it by SSL_set_session: this one never does, and `client_context` also keeps none and wants no
 * ticket. Libraries above OpenSSL may resume by themselves, and have a switch of their own (of libcurl
 * CURLOPT_SSL_SESSIONID_CACHE). A client that wants resumption gives its sessions a short life (SSL_CTX_set_timeout),
 * and forgets them when it takes a newer store.
 */
#include <arpa/inet.h>
#include <openssl/err.h>
#include <openssl/ssl.h>
#include <signal.h>
#include <string.h>
#include <sys/socket.h>
#include <sys/wait.h>
#include <unistd.h>

#include "der.h"
#include "opened.h"

/*
 * What a handshake makes of an answer. Good goes on, and revoked ends it. What the store doesn't cover is for the
 * client to settle: here it goes on, as it would without a store. A certificate with timestamps that can't be read ends
 * the handshake.
 */
static int error_by(uint32_t answer) {
    switch (answer) {
    case CLUBCARD_GOOD:
    case CLUBCARD_NOT_COVERED:
    case CLUBCARD_NOT_ENROLLED:
    case CLUBCARD_CERT_NO_SCTS: return X509_V_OK;
    case CLUBCARD_REVOKED: return X509_V_ERR_CERT_REVOKED;
    default: return X509_V_ERR_APPLICATION_VERIFICATION;
    }
}

/* The store of the context under which a certificate is verified. */
static const opened *store_in(X509_STORE_CTX *verifying) {
    SSL *ssl = X509_STORE_CTX_get_ex_data(verifying, SSL_get_ex_data_X509_STORE_CTX_idx());
    return SSL_CTX_get_app_data(SSL_get_SSL_CTX(ssl));
}

/*
 * OpenSSL calls this for each certificate of the chain that it found, the root first, once its own tests are done. Only
 * the server's own, the last, carries timestamps; its issuer's stands next in the chain.
 */
static int ask_store(int is_valid, X509_STORE_CTX *verifying) {
    if (!is_valid || X509_STORE_CTX_get_error_depth(verifying) != 0) return is_valid;
    const opened *store = store_in(verifying);
    STACK_OF(X509) *chain = X509_STORE_CTX_get0_chain(verifying);
    bytes cert = der_of(sk_X509_value(chain, 0));
    bytes issuer_cert = der_of(sk_X509_num(chain) > 1 ? sk_X509_value(chain, 1) : NULL);
    int error = X509_V_ERR_APPLICATION_VERIFICATION;
    if (cert.data && issuer_cert.data) {
        uint32_t answer = clubcard_ask_cert(store->file.data, store->file.len, store->index, store->facts.index_len,
                                            cert.data, cert.len, issuer_cert.data, issuer_cert.len);
        printf("the store says: %s\n", clubcard_strerror(answer));
        error = error_by(answer);
    }
    OPENSSL_free(cert.data);
    OPENSSL_free(issuer_cert.data);
    X509_STORE_CTX_set_error(verifying, error);
    return error == X509_V_OK;
}

/* Serves one handshake on the socket, in a process of its own. */
static void serve(int listening, const char *chain, const char *key) {
    SSL_CTX *context = SSL_CTX_new(TLS_server_method());
    SSL *ssl = NULL;
    int accepted = -1;
    if (context && SSL_CTX_use_certificate_chain_file(context, chain) == 1 &&
        SSL_CTX_use_PrivateKey_file(context, key, SSL_FILETYPE_PEM) == 1 &&
        (accepted = accept(listening, NULL, NULL)) >= 0 && (ssl = SSL_new(context)) && SSL_set_fd(ssl, accepted) == 1 &&
        SSL_accept(ssl) == 1) {
        SSL_shutdown(ssl);
    }
    SSL_free(ssl);
    SSL_CTX_free(context);
}

/* What all handshakes share: the root that is trusted, and the opened store. Connections of many threads may use it. */
static SSL_CTX *client_context(const char *root, opened *store) {
    SSL_CTX *context = SSL_CTX_new(TLS_client_method());
    if (!context || SSL_CTX_load_verify_locations(context, root, NULL) != 1) {
        SSL_CTX_free(context);
        return NULL;
    }
    SSL_CTX_set_app_data(context, store);
    SSL_CTX_set_verify(context, SSL_VERIFY_PEER, ask_store);
    SSL_CTX_set_session_cache_mode(context, SSL_SESS_CACHE_OFF);
    SSL_CTX_set_options(context, SSL_OP_NO_TICKET);
    return context;
}

/* Shakes hands with the server at the address, and says how that went. */
static int connect_to(const struct sockaddr_in *address, SSL_CTX *context) {
    SSL *ssl = NULL;
    int connected = socket(AF_INET, SOCK_STREAM, 0), status = 1;
    if (connect(connected, (const struct sockaddr *)address, sizeof *address) == 0 && (ssl = SSL_new(context)) &&
        SSL_set_fd(ssl, connected) == 1) {
        int done = SSL_connect(ssl) == 1;
        long error = SSL_get_verify_result(ssl);
        printf("the handshake %s: %s\n", done ? "is done" : "failed", X509_verify_cert_error_string(error));
        status = done ? 0 : error == X509_V_ERR_CERT_REVOKED ? 4 : 1;
    }
    SSL_free(ssl);
    close(connected);
    return status;
}

/* Starts a server with this certificate, shakes hands with it, and ends it. */
static int shake_hands(SSL_CTX *context, const char *chain, const char *key) {
    int listening = socket(AF_INET, SOCK_STREAM, 0);
    struct sockaddr_in address = {.sin_family = AF_INET, .sin_addr.s_addr = htonl(INADDR_LOOPBACK)};
    socklen_t len = sizeof address;
    if (bind(listening, (struct sockaddr *)&address, len) != 0 || listen(listening, 1) != 0 ||
        getsockname(listening, (struct sockaddr *)&address, &len) != 0) {
        perror("no server");
        return 1;
    }
    fflush(stdout);
    pid_t server = fork();
    if (server == 0) {
        serve(listening, chain, key);
        _exit(0);
    }
    close(listening);
    int status = server < 0 ? 1 : connect_to(&address, context);
    if (server > 0) {
        kill(server, SIGTERM);
        waitpid(server, NULL, 0);
    }
    return status;
}

int main(int argc, char **argv) {
    if (argc < 5 || argc % 2 == 0 || clubcard_interface() != CLUBCARD_INTERFACE) {
        fprintf(stderr, "usage: handshake STORE CA.pem CHAIN.pem KEY.pem [CHAIN.pem KEY.pem ..]\n");
        return 1;
    }
    opened store;
    uint32_t answer = open_store(&store, argv[1]);
    if (answer != CLUBCARD_DONE) {
        printf("the store isn't opened: %s\n", clubcard_strerror(answer));
        return 1;
    }
    signal(SIGPIPE, SIG_IGN);
    SSL_CTX *context = client_context(argv[2], &store);
    int status = context ? 0 : 1;
    for (int i = 3; context && i < argc; i += 2) {
        int went = shake_hands(context, argv[i], argv[i + 1]);
        if (status == 0 || went == 4) status = went;
    }
    SSL_CTX_free(context);
    close_store(&store);
    return status;
}
