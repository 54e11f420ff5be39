// What the programs of tests/languages/provider share: a library context of OpenSSL with its default provider and ours, and calls
// that have to be refused, with what is told of it.
#include "library.h"
#include <openssl/core_names.h>
#include <openssl/err.h>
#include <openssl/evp.h>
#include <openssl/params.h>
#include <openssl/provider.h>

static OSSL_LIB_CTX *context;
static OSSL_PROVIDER *ours, *theirs;

// done: a call of OpenSSL succeeds
#define DONE(call) done(#call, call)

static void done(const char *what, int answer) {
    judged(what, 0, answer == 1);
    if (answer != 1) ERR_print_errors_fp(stdout);
    ERR_clear_error();
}

// How a fetch asks for a provider.
#define OURS "provider=sums"
#define THEIRS "provider=default"

// Loads our module, from a folder, and OpenSSL's own provider into the context.
static void load(const char *folder) {
    context = OSSL_LIB_CTX_new();
    OSSL_PROVIDER_set_default_search_path(context, folder);
    ours = OSSL_PROVIDER_load(context, "sums");
    theirs = OSSL_PROVIDER_load(context, "default");
    if (ours && theirs) return;
    ERR_print_errors_fp(stderr);
    exit(2);
}

static void unload(void) {
    DONE(OSSL_PROVIDER_unload(ours));
    DONE(OSSL_PROVIDER_unload(theirs));
    OSSL_LIB_CTX_free(context);
}

static EVP_MD *digest(const char *name, const char *provider) {
    EVP_MD *found = EVP_MD_fetch(context, name, provider);
    judged(name, 0, found != NULL);
    if (!found) exit(2);
    return found;
}

static EVP_MAC_CTX *mac(const char *name, const char *provider) {
    EVP_MAC *found = EVP_MAC_fetch(context, name, provider);
    judged(name, 0, found != NULL);
    if (!found) exit(2);
    EVP_MAC_CTX *made = EVP_MAC_CTX_new(found);
    EVP_MAC_free(found);
    return made;
}

// refused: a call fails, and the last fault of the queue tells this
#define REFUSED(told, call)            \
    {                                  \
        ERR_clear_error();             \
        refused(#call, told, call);    \
    }

static void refused(const char *what, const char *told, int answer) {
    const char *beside = NULL;
    int flags;
    unsigned long fault = ERR_peek_last_error_data(&beside, &flags);
    char text[600];
    snprintf(text, sizeof text, "%s: %s", fault ? ERR_reason_error_string(fault) : "no fault", beside ? beside : "");
    judged(what, 0, answer <= 0 && strstr(text, told) != NULL);
    if (answer > 0 || !strstr(text, told)) printf("    answer %d, and %s\n", answer, text);
    ERR_clear_error();
}
