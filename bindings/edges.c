/*
 * What no call in Rattle can give, and no proof is of: texts that stay, memory that is wiped before
 * it is freed, and calls that close NULL. `make archive` renames the proved calls that close to
 * proved_addrman_close and so on, and what the proved calls free or move to the functions below.
 */
#include "addrman.h"

#include <malloc.h>
#include <stdlib.h>
#include <string.h>

/* ------------------------------------------------------------------------------------ memory */

void wiping_free(void *old);
void *wiping_realloc(void *old, size_t size);

/* Freed memory keeps nothing of keys, files and messages. The empty assembly keeps the compiler
 * from leaving out what nobody reads. */
void wiping_free(void *old)
{
    if (old) {
        memset(old, 0, malloc_usable_size(old));
        __asm__ volatile("" : : "r"(old) : "memory");
    }
    free(old);
}

/* A block that moves leaves nothing behind either. */
void *wiping_realloc(void *old, size_t size)
{
    void *grown = malloc(size);
    size_t length = old ? malloc_usable_size(old) : 0;
    if (!grown) return NULL;
    if (old) memcpy(grown, old, length < size ? length : size);
    wiping_free(old);
    return grown;
}

/* ------------------------------------------------------------------------------------- texts */

const char *addrman_version(void)
{
    return ADDRMAN_VERSION;
}

const char *addrman_result_text(addrman_result code)
{
    switch (code) {
    case ADDRMAN_OK: return "ok";
    case ADDRMAN_ERR_CLOSED: return "the object is not open";
    case ADDRMAN_ERR_MEMORY: return "out of memory";
    case ADDRMAN_ERR_ARGUMENT: return "an argument has no meaning";
    case ADDRMAN_ERR_FULL: return "full";
    case ADDRMAN_ERR_SHORT_WORDS: return "too few random words";
    case ADDRMAN_ERR_SHORT_BUFFER: return "the output has too little room";
    case ADDRMAN_ERR_REFUSED: return "the bytes are refused";
    case ADDRMAN_NONE: return "nothing to return";
    case ADDRMAN_EXHAUSTED: return "the random words were used up";
    default: return "unknown";
    }
}

const char *addrman_fault_text(uint32_t kind)
{
    switch (kind) {
    case ADDRMAN_FAULT_TRUNCATED: return "truncated";
    case ADDRMAN_FAULT_NON_CANONICAL: return "non-canonical";
    case ADDRMAN_FAULT_TOO_MANY: return "too-many";
    case ADDRMAN_FAULT_BAD_LENGTH: return "bad-length";
    case ADDRMAN_FAULT_TOO_LONG: return "too-long";
    case ADDRMAN_FAULT_TRAILING: return "trailing";
    case ADDRMAN_FAULT_BAD_MAGIC: return "bad-magic";
    case ADDRMAN_FAULT_BAD_SUM: return "bad-sum";
    case ADDRMAN_FAULT_COMPAT: return "compat";
    case ADDRMAN_FAULT_VERSION: return "version";
    case ADDRMAN_FAULT_COUNT: return "count";
    case ADDRMAN_FAULT_RECORD: return "record";
    case ADDRMAN_FAULT_BUCKETS: return "buckets";
    case ADDRMAN_FAULT_TIME: return "time";
    case ADDRMAN_FAULT_ATTEMPTS: return "attempts";
    case ADDRMAN_FAULT_TOO_LARGE: return "too-large";
    case ADDRMAN_FAULT_DUPLICATE: return "duplicate";
    case ADDRMAN_FAULT_ASMAP: return "asmap";
    case ADDRMAN_FAULT_JSON: return "json";
    case ADDRMAN_FAULT_FORM: return "form";
    case ADDRMAN_FAULT_LINE: return "form";
    case ADDRMAN_FAULT_NUMBER: return "number";
    case ADDRMAN_FAULT_HOST_BITS: return "host-bits";
    case ADDRMAN_FAULT_REPEATED: return "repeated";
    case ADDRMAN_FAULT_EMPTY: return "empty";
    case ADDRMAN_FAULT_LONG_CODE: return "code-too-large";
    default: return "unknown";
    }
}

/* ----------------------------------------------------------------------- the calls that close */

#define CLOSES(name, type)                                                                         \
    __typeof__(name) proved_##name;                                                                \
    void name(type *object)                                                                        \
    {                                                                                              \
        if (object) proved_##name(object);                                                         \
    }

CLOSES(addrman_close, addrman)
CLOSES(addrman_save_close, addrman_save)
CLOSES(addrman_bans_close, addrman_bans)
CLOSES(addrman_limiter_close, addrman_limiter)
CLOSES(addrman_answers_close, addrman_answers)
