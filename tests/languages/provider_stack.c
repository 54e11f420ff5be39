// How much stack the provider's digests and MACs take through OpenSSL's interface, each in a thread of its own whose
// stack was painted before; and each in a job of OpenSSL's ASYNC, which has 32 KiB. See tests/languages/provider.
// usage: provider_stack MODULES    the folder of the module

#include "provider.h"
#include <openssl/async.h>
#include <pthread.h>

enum { STACK = 1 << 18, MOST = 20 * 1024, LENGTH = 1 << 20 };

static uint8_t text[LENGTH], out[1000];

struct work {
    EVP_MD *digest;
    EVP_MAC *mac;
    uint8_t *frame; // where the stack of the thread that does it stands when it begins
};

static int digest_of_text(EVP_MD *digest) {
    EVP_MD_CTX *hasher = EVP_MD_CTX_new(), *other = EVP_MD_CTX_new();
    int is_done = EVP_DigestInit_ex2(hasher, digest, NULL) && EVP_DigestUpdate(hasher, text, 1)
        && EVP_DigestUpdate(hasher, text, LENGTH - 1) && EVP_MD_CTX_copy_ex(other, hasher)
        && EVP_DigestFinal_ex(hasher, out, NULL);
    if (EVP_MD_get_flags(digest) & EVP_MD_FLAG_XOF) is_done = is_done && EVP_DigestFinalXOF(other, out, sizeof out);
    EVP_MD_CTX_free(hasher);
    EVP_MD_CTX_free(other);
    return is_done;
}

static int mac_of_text(EVP_MAC *mac) {
    EVP_MAC_CTX *tag = EVP_MAC_CTX_new(mac), *other = NULL;
    size_t count;
    int is_done = EVP_MAC_init(tag, text, 32, NULL) && EVP_MAC_update(tag, text, 1)
        && EVP_MAC_update(tag, text, LENGTH - 1) && (other = EVP_MAC_CTX_dup(tag)) != NULL
        && EVP_MAC_final(tag, out, &count, sizeof out) && EVP_MAC_final(other, out, &count, sizeof out);
    EVP_MAC_CTX_free(tag);
    EVP_MAC_CTX_free(other);
    return is_done;
}

static int works(void *handed) {
    struct work *work = handed;
    return work->digest ? digest_of_text(work->digest) : mac_of_text(work->mac);
}

static void *in_thread(void *handed) {
    ((struct work *)handed)->frame = __builtin_frame_address(0);
    return (void *)(intptr_t)works(handed);
}

// How many bytes of its stack a thread touches below where it begins this work.
static size_t touched(struct work *work) {
    uint8_t *stack = mmap(NULL, STACK, PROT_READ | PROT_WRITE, MAP_PRIVATE | MAP_ANONYMOUS, -1, 0);
    pthread_attr_t attributes;
    pthread_t thread;
    void *is_done = NULL;
    size_t free = 0;
    if (stack == MAP_FAILED) exit(2);
    memset(stack, 0xa5, STACK);
    pthread_attr_init(&attributes);
    pthread_attr_setstack(&attributes, stack, STACK);
    if (pthread_create(&thread, &attributes, in_thread, work) != 0) exit(2);
    pthread_join(thread, &is_done);
    judged("work in a thread", LENGTH, is_done != NULL);
    while (stack[free] == 0xa5) free++;
    munmap(stack, STACK);
    return work->frame - (stack + free);
}

static size_t most;

static void tried(const char *name, struct work work) {
    ASYNC_WAIT_CTX *waiting = ASYNC_WAIT_CTX_new();
    ASYNC_JOB *job = NULL;
    int is_done = 0;
    size_t taken = touched(&work);
    judged(name, LENGTH, taken <= MOST);
    if (taken > most) most = taken;
    if (ASYNC_is_capable()) {
        judged(name, LENGTH, ASYNC_start_job(&job, waiting, &is_done, works, &work, sizeof work) == ASYNC_FINISH);
        judged("a job", LENGTH, is_done == 1);
    }
    ASYNC_WAIT_CTX_free(waiting);
}

int main(int count, char **words) {
    static const char *const digests[] = {"SHA2-256", "SHA2-512", "BLAKE2B-512", "BLAKE2S-256", "BLAKE3", "BLAKE3-256"};
    static const char *const macs[] = {"BLAKE2BMAC", "BLAKE2SMAC", "BLAKE3MAC"};
    if (count != 2) return 2;
    load(words[1]);
    for (int i = 0; i < 6; i++) {
        EVP_MD *function = digest(digests[i], OURS);
        tried(digests[i], (struct work){function, NULL, NULL});
        EVP_MD_free(function);
    }
    for (int i = 0; i < 3; i++) {
        EVP_MAC *function = EVP_MAC_fetch(context, macs[i], OURS);
        tried(macs[i], (struct work){NULL, function, NULL});
        EVP_MAC_free(function);
    }
    unload();
    printf("at most %zu bytes of stack\n", most);
    return ends("stack of the provider");
}
