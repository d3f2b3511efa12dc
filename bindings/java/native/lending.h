/* Arrays of Java lent to one call of fantanolive.h, and given back. */
#ifndef LENDING_H
#define LENDING_H

#include <jni.h>
#include <stddef.h>
#include <stdint.h>

#include "fantanolive.h"

/* What a method answers where an array can't be lent; a Java exception is then on its way. */
#define NOT_LENT ((jlong)-1)

enum { MOST_ARRAYS = 8 };

struct lent_array {
    jarray array;
    void *start;
    char kind; /* b bytes, i numbers of 32 bits, l numbers of 64 */
    char written;
};

struct lent {
    JNIEnv *env;
    int count;
    int failed;
    struct lent_array arrays[MOST_ARRAYS];
};

static inline size_t length(JNIEnv *env, jarray array)
{
    return (size_t)(*env)->GetArrayLength(env, array);
}

static inline void *lend(struct lent *lent, jarray array, char kind, char written)
{
    JNIEnv *env = lent->env;
    void *start = NULL;

    if (lent->failed) return NULL;
    if (kind == 'b') start = (*env)->GetByteArrayElements(env, array, NULL);
    if (kind == 'i') start = (*env)->GetIntArrayElements(env, array, NULL);
    if (kind == 'l') start = (*env)->GetLongArrayElements(env, array, NULL);
    if (start == NULL) {
        lent->failed = 1;
        return NULL;
    }
    lent->arrays[lent->count++] = (struct lent_array){array, start, kind, written};
    return start;
}

/* Gives the arrays back: with what was written where the call was carried out, and the place that goes with refusal 16. */
static inline jlong answered(struct lent *lent, uint64_t answer)
{
    JNIEnv *env = lent->env;
    int i;

    for (i = 0; i < lent->count; i++) {
        struct lent_array *item = &lent->arrays[i];
        int is_told = answer == FANTANOLIVE_DONE || (answer == FANTANOLIVE_NO_COUNTERPART && item->kind == 'l');
        jint mode = !lent->failed && item->written && is_told ? 0 : JNI_ABORT;
        if (item->kind == 'b') (*env)->ReleaseByteArrayElements(env, item->array, item->start, mode);
        if (item->kind == 'i') (*env)->ReleaseIntArrayElements(env, item->array, item->start, mode);
        if (item->kind == 'l') (*env)->ReleaseLongArrayElements(env, item->array, item->start, mode);
    }
    return lent->failed ? NOT_LENT : (jlong)answer;
}

#endif
