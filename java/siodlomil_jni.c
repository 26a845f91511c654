/*
 * The native methods of Siodlomil.java over the C functions. Each takes the arrays' elements, makes the call, gives them back
 * and answers the fields of the answer as ints, in the header's order.
 */
#include <jni.h>
#include <string.h>

#include "siodlomil.h"

/* What an array that is lent to a call holds. */
typedef enum { BYTES, ROWS, IDS } kind;

/* An array that is lent to a call, and its elements. */
typedef struct {
    kind of;
    jarray array;
    void *elements;
    size_t length;
} lent;

static void throw_named(JNIEnv *env, const char *name, const char *message)
{
    jclass thrown = (*env)->FindClass(env, name);
    if (thrown != NULL) {
        (*env)->ThrowNew(env, thrown, message);
    }
}

/* The elements of an array; of an empty one they are never looked at. */
static void *elements_of(JNIEnv *env, const lent *one)
{
    switch (one->of) {
    case ROWS: return (*env)->GetLongArrayElements(env, one->array, NULL);
    case IDS: return (*env)->GetShortArrayElements(env, one->array, NULL);
    default: return (*env)->GetByteArrayElements(env, one->array, NULL);
    }
}

/* Gives the elements of the first `count` arrays back: those from `written` on with what was written, the others as they
 * were. */
static void give_back(JNIEnv *env, const lent *all, int count, int written)
{
    for (int k = 0; k < count; k++) {
        jint mode = k < written ? JNI_ABORT : 0;
        switch (all[k].of) {
        case ROWS: (*env)->ReleaseLongArrayElements(env, all[k].array, all[k].elements, mode); break;
        case IDS: (*env)->ReleaseShortArrayElements(env, all[k].array, all[k].elements, mode); break;
        default: (*env)->ReleaseByteArrayElements(env, all[k].array, all[k].elements, mode);
        }
    }
}

/* Whether the arrays are there, and none that is written, from `written` on, is lent twice; throws where not. */
static int are_lendable(JNIEnv *env, const lent *all, int count, int written)
{
    for (int k = 0; k < count; k++) {
        if (all[k].array == NULL) {
            throw_named(env, "java/lang/NullPointerException", "siodlomil: an array is null");
            return 0;
        }
        for (int other = 0; written <= k && other < k; other++) {
            if ((*env)->IsSameObject(env, all[k].array, all[other].array)) {
                throw_named(env, "java/lang/IllegalArgumentException", "siodlomil: an array that is written is lent twice");
                return 0;
            }
        }
    }
    return 1;
}

/* Takes the elements of all arrays, or none of them and throws. */
static int take(JNIEnv *env, lent *all, int count, int written)
{
    if (!are_lendable(env, all, count, written)) {
        return 0;
    }
    for (int k = 0; k < count; k++) {
        all[k].length = (size_t)(*env)->GetArrayLength(env, all[k].array);
        all[k].elements = elements_of(env, &all[k]);
        if (all[k].elements == NULL) { /* Java has thrown */
            give_back(env, all, k, k);
            return 0;
        }
    }
    return 1;
}

/* The fields of an answer as an array of ints. */
static jintArray ints(JNIEnv *env, const void *answer, size_t bytes)
{
    jint fields[sizeof(siodlomil_bounds_within_answer) / sizeof(jint)];
    jsize count = (jsize)(bytes / sizeof(jint));
    jintArray array = (*env)->NewIntArray(env, count);
    memcpy(fields, answer, bytes);
    if (array != NULL) {
        (*env)->SetIntArrayRegion(env, array, 0, count, fields);
    }
    return array;
}

JNIEXPORT jintArray JNICALL Java_siodlomil_Siodlomil_callMap(JNIEnv *env, jclass of, jbyteArray image, jlongArray map)
{
    (void)of;
    lent all[] = {{BYTES, image, NULL, 0}, {ROWS, map, NULL, 0}};
    if (!take(env, all, 2, 1)) {
        return NULL;
    }
    siodlomil_map_answer answer = siodlomil_map(all[0].elements, all[0].length, all[1].elements, all[1].length);
    give_back(env, all, 2, 1);
    return ints(env, &answer, sizeof answer);
}

JNIEXPORT jintArray JNICALL Java_siodlomil_Siodlomil_callBounds(JNIEnv *env, jclass of, jbyteArray image, jlongArray map,
                                                      jshortArray ids)
{
    (void)of;
    lent all[] = {{BYTES, image, NULL, 0}, {ROWS, map, NULL, 0}, {IDS, ids, NULL, 0}};
    if (!take(env, all, 3, 2)) {
        return NULL;
    }
    siodlomil_bounds_answer answer = siodlomil_bounds(all[0].elements, all[0].length, all[1].elements, all[1].length,
                                                      all[2].elements, all[2].length);
    give_back(env, all, 3, 2);
    return ints(env, &answer, sizeof answer);
}

JNIEXPORT jintArray JNICALL Java_siodlomil_Siodlomil_callBoundsWithin(JNIEnv *env, jclass of, jbyteArray image,
                                                            jlongArray map, jshortArray ids, jint limit)
{
    (void)of;
    lent all[] = {{BYTES, image, NULL, 0}, {ROWS, map, NULL, 0}, {IDS, ids, NULL, 0}};
    if (!take(env, all, 3, 2)) {
        return NULL;
    }
    siodlomil_bounds_within_answer answer =
        siodlomil_bounds_within(all[0].elements, all[0].length, all[1].elements, all[1].length, all[2].elements,
                                all[2].length, (uint32_t)limit);
    give_back(env, all, 3, 2);
    return ints(env, &answer, sizeof answer);
}

JNIEXPORT jintArray JNICALL Java_siodlomil_Siodlomil_callRoomLeft(JNIEnv *env, jclass of, jbyteArray image, jlongArray map,
                                                        jint reserve, jlongArray room)
{
    (void)of;
    lent all[] = {{BYTES, image, NULL, 0}, {ROWS, map, NULL, 0}, {ROWS, room, NULL, 0}};
    if (!take(env, all, 3, 2)) {
        return NULL;
    }
    siodlomil_room_left_answer answer =
        siodlomil_room_left(all[0].elements, all[0].length, all[1].elements, all[1].length, (uint32_t)reserve,
                            all[2].elements, all[2].length);
    give_back(env, all, 3, 2);
    return ints(env, &answer, sizeof answer);
}

JNIEXPORT jintArray JNICALL Java_siodlomil_Siodlomil_callChainThrough(JNIEnv *env, jclass of, jbyteArray image,
                                                            jlongArray map, jint id, jshortArray ids)
{
    (void)of;
    lent all[] = {{BYTES, image, NULL, 0}, {ROWS, map, NULL, 0}, {IDS, ids, NULL, 0}};
    if (!take(env, all, 3, 2)) {
        return NULL;
    }
    siodlomil_chain_through_answer answer =
        siodlomil_chain_through(all[0].elements, all[0].length, all[1].elements, all[1].length, (uint32_t)id,
                                all[2].elements, all[2].length);
    give_back(env, all, 3, 2);
    return ints(env, &answer, sizeof answer);
}

JNIEXPORT jintArray JNICALL Java_siodlomil_Siodlomil_callReason(JNIEnv *env, jclass of, jbyteArray image, jint low, jint high)
{
    (void)of;
    lent all[] = {{BYTES, image, NULL, 0}};
    if (!take(env, all, 1, 1)) {
        return NULL;
    }
    siodlomil_reason_answer answer =
        siodlomil_reason(all[0].elements, all[0].length, (uint32_t)low, (uint32_t)high);
    give_back(env, all, 1, 1);
    return ints(env, &answer, sizeof answer);
}

JNIEXPORT jintArray JNICALL Java_siodlomil_Siodlomil_callPatch(JNIEnv *env, jclass of, jbyteArray base, jbyteArray patch,
                                                     jlongArray base_map, jbyteArray room, jlongArray new_map)
{
    (void)of;
    lent all[] = {{BYTES, base, NULL, 0}, {BYTES, patch, NULL, 0}, {ROWS, base_map, NULL, 0}, {BYTES, room, NULL, 0}, {ROWS, new_map, NULL, 0}};
    if (!take(env, all, 5, 3)) {
        return NULL;
    }
    siodlomil_patch_answer answer = siodlomil_patch(
        all[0].elements, all[0].length, all[1].elements, all[1].length, all[2].elements, all[2].length,
        all[3].elements, all[3].length, all[4].elements, all[4].length);
    give_back(env, all, 5, 3);
    return ints(env, &answer, sizeof answer);
}

JNIEXPORT jintArray JNICALL Java_siodlomil_Siodlomil_callReverse(JNIEnv *env, jclass of, jbyteArray patch, jbyteArray room)
{
    (void)of;
    lent all[] = {{BYTES, patch, NULL, 0}, {BYTES, room, NULL, 0}};
    if (!take(env, all, 2, 1)) {
        return NULL;
    }
    siodlomil_reverse_answer answer =
        siodlomil_reverse(all[0].elements, all[0].length, all[1].elements, all[1].length);
    give_back(env, all, 2, 1);
    return ints(env, &answer, sizeof answer);
}

JNIEXPORT jintArray JNICALL Java_siodlomil_Siodlomil_callOffending(JNIEnv *env, jclass of, jbyteArray base, jbyteArray patch)
{
    (void)of;
    lent all[] = {{BYTES, base, NULL, 0}, {BYTES, patch, NULL, 0}};
    if (!take(env, all, 2, 2)) {
        return NULL;
    }
    siodlomil_offending_answer answer =
        siodlomil_offending(all[0].elements, all[0].length, all[1].elements, all[1].length);
    give_back(env, all, 2, 2);
    jint fields[] = {(jint)answer.at, (jint)answer.length};
    return ints(env, fields, sizeof fields);
}
