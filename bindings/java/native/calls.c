/* The native methods of fantanolive.Native, one call each. Written by bin/generate-layouts from fantanolive.h; not to be edited. */
#include "lending.h"

JNIEXPORT jlong JNICALL Java_fantanolive_Native_apply(
    JNIEnv *env,
    jclass type,
    jbyteArray master,
    jlong rows,
    jbyteArray batch,
    jbyteArray locals,
    jlong year,
    jlongArray verdicts,
    jbyteArray rejects,
    jlongArray result)
{
    struct lent lent = {env, 0, 0, {{0}}};
    uint8_t *lent_master = lend(&lent, master, 'b', 1);
    const uint8_t *lent_batch = lend(&lent, batch, 'b', 0);
    const uint8_t *lent_locals = lend(&lent, locals, 'b', 0);
    uint64_t *lent_verdicts = lend(&lent, verdicts, 'l', 1);
    uint8_t *lent_rejects = lend(&lent, rejects, 'b', 1);
    uint64_t *lent_result = lend(&lent, result, 'l', 1);
    (void)type;
    if (lent.failed) return answered(&lent, NOT_LENT);
    return answered(&lent, fantanolive_apply(
        lent_master, length(env, master),
        (size_t)rows,
        lent_batch, length(env, batch),
        lent_locals, length(env, locals),
        (uint64_t)year,
        lent_verdicts, length(env, verdicts),
        lent_rejects, length(env, rejects),
        lent_result));
}

JNIEXPORT jlong JNICALL Java_fantanolive_Native_applyJournaled(
    JNIEnv *env,
    jclass type,
    jbyteArray master,
    jlong rows,
    jbyteArray batch,
    jbyteArray locals,
    jlong year,
    jlongArray verdicts,
    jbyteArray rejects,
    jbyteArray journal,
    jlongArray result)
{
    struct lent lent = {env, 0, 0, {{0}}};
    uint8_t *lent_master = lend(&lent, master, 'b', 1);
    const uint8_t *lent_batch = lend(&lent, batch, 'b', 0);
    const uint8_t *lent_locals = lend(&lent, locals, 'b', 0);
    uint64_t *lent_verdicts = lend(&lent, verdicts, 'l', 1);
    uint8_t *lent_rejects = lend(&lent, rejects, 'b', 1);
    uint8_t *lent_journal = lend(&lent, journal, 'b', 1);
    uint64_t *lent_result = lend(&lent, result, 'l', 1);
    (void)type;
    if (lent.failed) return answered(&lent, NOT_LENT);
    return answered(&lent, fantanolive_apply_journaled(
        lent_master, length(env, master),
        (size_t)rows,
        lent_batch, length(env, batch),
        lent_locals, length(env, locals),
        (uint64_t)year,
        lent_verdicts, length(env, verdicts),
        lent_rejects, length(env, rejects),
        lent_journal, length(env, journal),
        lent_result));
}

JNIEXPORT jlong JNICALL Java_fantanolive_Native_takeBack(
    JNIEnv *env,
    jclass type,
    jbyteArray master,
    jlong rows,
    jbyteArray journal,
    jlongArray rows_after)
{
    struct lent lent = {env, 0, 0, {{0}}};
    uint8_t *lent_master = lend(&lent, master, 'b', 1);
    const uint8_t *lent_journal = lend(&lent, journal, 'b', 0);
    uint64_t *lent_rows_after = lend(&lent, rows_after, 'l', 1);
    (void)type;
    if (lent.failed) return answered(&lent, NOT_LENT);
    return answered(&lent, fantanolive_take_back(
        lent_master, length(env, master),
        (size_t)rows,
        lent_journal, length(env, journal),
        lent_rows_after));
}

JNIEXPORT jlong JNICALL Java_fantanolive_Native_totals(
    JNIEnv *env,
    jclass type,
    jbyteArray batch,
    jlongArray totals)
{
    struct lent lent = {env, 0, 0, {{0}}};
    const uint8_t *lent_batch = lend(&lent, batch, 'b', 0);
    uint64_t *lent_totals = lend(&lent, totals, 'l', 1);
    (void)type;
    if (lent.failed) return answered(&lent, NOT_LENT);
    return answered(&lent, fantanolive_totals(
        lent_batch, length(env, batch),
        lent_totals));
}

JNIEXPORT jlong JNICALL Java_fantanolive_Native_merge(
    JNIEnv *env,
    jclass type,
    jbyteArray first,
    jbyteArray second,
    jbyteArray out,
    jlongArray records)
{
    struct lent lent = {env, 0, 0, {{0}}};
    const uint8_t *lent_first = lend(&lent, first, 'b', 0);
    const uint8_t *lent_second = lend(&lent, second, 'b', 0);
    uint8_t *lent_out = lend(&lent, out, 'b', 1);
    uint64_t *lent_records = lend(&lent, records, 'l', 1);
    (void)type;
    if (lent.failed) return answered(&lent, NOT_LENT);
    return answered(&lent, fantanolive_merge(
        lent_first, length(env, first),
        lent_second, length(env, second),
        lent_out, length(env, out),
        lent_records));
}

JNIEXPORT jlong JNICALL Java_fantanolive_Native_find(
    JNIEnv *env,
    jclass type,
    jbyteArray master,
    jlong rows,
    jbyteArray key,
    jlongArray place)
{
    struct lent lent = {env, 0, 0, {{0}}};
    const uint8_t *lent_master = lend(&lent, master, 'b', 0);
    const uint8_t *lent_key = lend(&lent, key, 'b', 0);
    uint64_t *lent_place = lend(&lent, place, 'l', 1);
    (void)type;
    if (lent.failed) return answered(&lent, NOT_LENT);
    return answered(&lent, fantanolive_find(
        lent_master, length(env, master),
        (size_t)rows,
        lent_key, length(env, key),
        lent_place));
}

JNIEXPORT jlong JNICALL Java_fantanolive_Native_findMany(
    JNIEnv *env,
    jclass type,
    jbyteArray master,
    jlong rows,
    jbyteArray keys,
    jintArray places,
    jlongArray comparisons)
{
    struct lent lent = {env, 0, 0, {{0}}};
    const uint8_t *lent_master = lend(&lent, master, 'b', 0);
    const uint8_t *lent_keys = lend(&lent, keys, 'b', 0);
    uint32_t *lent_places = lend(&lent, places, 'i', 1);
    uint64_t *lent_comparisons = lend(&lent, comparisons, 'l', 1);
    (void)type;
    if (lent.failed) return answered(&lent, NOT_LENT);
    return answered(&lent, fantanolive_find_many(
        lent_master, length(env, master),
        (size_t)rows,
        lent_keys, length(env, keys),
        lent_places, length(env, places),
        lent_comparisons));
}

JNIEXPORT jlong JNICALL Java_fantanolive_Native_reconcile(
    JNIEnv *env,
    jclass type,
    jbyteArray master,
    jlong rows,
    jbyteArray state,
    jbyteArray date,
    jbyteArray out,
    jlongArray records)
{
    struct lent lent = {env, 0, 0, {{0}}};
    const uint8_t *lent_master = lend(&lent, master, 'b', 0);
    const uint8_t *lent_state = lend(&lent, state, 'b', 0);
    const uint8_t *lent_date = lend(&lent, date, 'b', 0);
    uint8_t *lent_out = lend(&lent, out, 'b', 1);
    uint64_t *lent_records = lend(&lent, records, 'l', 1);
    (void)type;
    if (lent.failed) return answered(&lent, NOT_LENT);
    return answered(&lent, fantanolive_reconcile(
        lent_master, length(env, master),
        (size_t)rows,
        lent_state, length(env, state),
        lent_date, length(env, date),
        lent_out, length(env, out),
        lent_records));
}

JNIEXPORT jlong JNICALL Java_fantanolive_Native_pages(
    JNIEnv *env,
    jclass type,
    jbyteArray master,
    jlong rows,
    jbyteArray out,
    jlongArray pages)
{
    struct lent lent = {env, 0, 0, {{0}}};
    const uint8_t *lent_master = lend(&lent, master, 'b', 0);
    uint8_t *lent_out = lend(&lent, out, 'b', 1);
    uint64_t *lent_pages = lend(&lent, pages, 'l', 1);
    (void)type;
    if (lent.failed) return answered(&lent, NOT_LENT);
    return answered(&lent, fantanolive_pages(
        lent_master, length(env, master),
        (size_t)rows,
        lent_out, length(env, out),
        lent_pages));
}

JNIEXPORT jlong JNICALL Java_fantanolive_Native_addCents(
    JNIEnv *env,
    jclass type,
    jbyteArray master,
    jlong rows)
{
    struct lent lent = {env, 0, 0, {{0}}};
    uint8_t *lent_master = lend(&lent, master, 'b', 1);
    (void)type;
    if (lent.failed) return answered(&lent, NOT_LENT);
    return answered(&lent, fantanolive_add_cents(
        lent_master, length(env, master),
        (size_t)rows));
}

JNIEXPORT jlong JNICALL Java_fantanolive_Native_post(
    JNIEnv *env,
    jclass type,
    jbyteArray master,
    jlong rows,
    jbyteArray file,
    jintArray lines,
    jlongArray listed)
{
    struct lent lent = {env, 0, 0, {{0}}};
    uint8_t *lent_master = lend(&lent, master, 'b', 1);
    const uint8_t *lent_file = lend(&lent, file, 'b', 0);
    uint32_t *lent_lines = lend(&lent, lines, 'i', 1);
    uint64_t *lent_listed = lend(&lent, listed, 'l', 1);
    (void)type;
    if (lent.failed) return answered(&lent, NOT_LENT);
    return answered(&lent, fantanolive_post(
        lent_master, length(env, master),
        (size_t)rows,
        lent_file, length(env, file),
        lent_lines, length(env, lines),
        lent_listed));
}

JNIEXPORT jlong JNICALL Java_fantanolive_Native_toEbcdic(
    JNIEnv *env,
    jclass type,
    jbyteArray in,
    jbyteArray out,
    jlongArray place)
{
    struct lent lent = {env, 0, 0, {{0}}};
    const uint8_t *lent_in = lend(&lent, in, 'b', 0);
    uint8_t *lent_out = lend(&lent, out, 'b', 1);
    uint64_t *lent_place = lend(&lent, place, 'l', 1);
    (void)type;
    if (lent.failed) return answered(&lent, NOT_LENT);
    return answered(&lent, fantanolive_to_ebcdic(
        lent_in, length(env, in),
        lent_out, length(env, out),
        lent_place));
}

JNIEXPORT jlong JNICALL Java_fantanolive_Native_toAscii(
    JNIEnv *env,
    jclass type,
    jbyteArray in,
    jbyteArray out,
    jlongArray place)
{
    struct lent lent = {env, 0, 0, {{0}}};
    const uint8_t *lent_in = lend(&lent, in, 'b', 0);
    uint8_t *lent_out = lend(&lent, out, 'b', 1);
    uint64_t *lent_place = lend(&lent, place, 'l', 1);
    (void)type;
    if (lent.failed) return answered(&lent, NOT_LENT);
    return answered(&lent, fantanolive_to_ascii(
        lent_in, length(env, in),
        lent_out, length(env, out),
        lent_place));
}

JNIEXPORT jlong JNICALL Java_fantanolive_Native_contactsUpdate(
    JNIEnv *env,
    jclass type,
    jbyteArray table,
    jlong count,
    jbyteArray file,
    jintArray faulty,
    jlongArray result)
{
    struct lent lent = {env, 0, 0, {{0}}};
    uint8_t *lent_table = lend(&lent, table, 'b', 1);
    const uint8_t *lent_file = lend(&lent, file, 'b', 0);
    uint32_t *lent_faulty = lend(&lent, faulty, 'i', 1);
    uint64_t *lent_result = lend(&lent, result, 'l', 1);
    (void)type;
    if (lent.failed) return answered(&lent, NOT_LENT);
    return answered(&lent, fantanolive_contacts_update(
        lent_table, length(env, table),
        (size_t)count,
        lent_file, length(env, file),
        lent_faulty, length(env, faulty),
        lent_result));
}

JNIEXPORT jlong JNICALL Java_fantanolive_Native_contactsCodes(
    JNIEnv *env,
    jclass type,
    jbyteArray table,
    jlong count,
    jbyteArray state,
    jbyteArray out,
    jlongArray codes)
{
    struct lent lent = {env, 0, 0, {{0}}};
    const uint8_t *lent_table = lend(&lent, table, 'b', 0);
    const uint8_t *lent_state = lend(&lent, state, 'b', 0);
    uint8_t *lent_out = lend(&lent, out, 'b', 1);
    uint64_t *lent_codes = lend(&lent, codes, 'l', 1);
    (void)type;
    if (lent.failed) return answered(&lent, NOT_LENT);
    return answered(&lent, fantanolive_contacts_codes(
        lent_table, length(env, table),
        (size_t)count,
        lent_state, length(env, state),
        lent_out, length(env, out),
        lent_codes));
}

JNIEXPORT jlong JNICALL Java_fantanolive_Native_recordsTo(
    JNIEnv *env,
    jclass type,
    jbyteArray row,
    jbyteArray wanted,
    jbyteArray locals,
    jbyteArray out,
    jlongArray records)
{
    struct lent lent = {env, 0, 0, {{0}}};
    const uint8_t *lent_row = lend(&lent, row, 'b', 0);
    const uint8_t *lent_wanted = lend(&lent, wanted, 'b', 0);
    const uint8_t *lent_locals = lend(&lent, locals, 'b', 0);
    uint8_t *lent_out = lend(&lent, out, 'b', 1);
    uint64_t *lent_records = lend(&lent, records, 'l', 1);
    (void)type;
    if (lent.failed) return answered(&lent, NOT_LENT);
    return answered(&lent, fantanolive_records_to(
        lent_row, length(env, row),
        lent_wanted, length(env, wanted),
        lent_locals, length(env, locals),
        lent_out, length(env, out),
        lent_records));
}

JNIEXPORT jstring JNICALL Java_fantanolive_Native_version(JNIEnv *env, jclass type)
{
    (void)type;
    return (*env)->NewStringUTF(env, fantanolive_version());
}
