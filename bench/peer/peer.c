/*
 * What a ledger's requests cost in C SQLite: the statements that `ledgerd` makes of a batch of
 * transfers, a lookup, a page of a history and a statement, on the same tables. It judges nothing:
 * every transfer is taken to be accepted.
 *
 *     peer FILE write ACCOUNTS STORED      transfers in batches of 1,000, 100 and 1
 *     peer FILE due ACCOUNTS OPEN          the same beside open pending transfers, 100 of them due
 *     peer FILE read ACCOUNTS LENGTH       lookups, pages and a statement of account 1's history
 *     peer FILE shared ACCOUNTS SIZE MANY TENANTS SECONDS    batches of SIZE of so many tenants in
 *                                          turn, of which MANY share a commit
 *
 * FILE is made, and must not be there. Prints lines of a case, its microseconds, and how often it
 * was done in them; of the last, how many transfers were kept, in how many seconds and in how many
 * of the processor's.
 */
#include <sqlite3.h>
#include <stdint.h>
#include <stdio.h>
#include <stdlib.h>
#include <string.h>
#include <time.h>

#include "schema.h"

#define START 1000000000000000000
#define SECOND 1000000000
#define FIRST_ID 1000000
#define DUE_SOON 100

typedef uint8_t wide[16];

typedef struct {
    uint64_t id, debit, credit;
    int is_pending;
    int64_t timeout;
} transfer;

typedef struct {
    int64_t due;
    uint64_t id;
} deadline;

static sqlite3 *db;
static int64_t tenant = 1;
static int64_t now = START, clock_now;
static uint64_t next_place;
static deadline *deadlines;
static size_t deadline_count, deadline_next;

static void fail(const char *what) {
    fprintf(stderr, "peer: %s: %s\n", what, db ? sqlite3_errmsg(db) : "");
    exit(1);
}

static double micros(void) {
    struct timespec t;
    clock_gettime(CLOCK_MONOTONIC, &t);
    return t.tv_sec * 1e6 + t.tv_nsec / 1e3;
}

static void run(const char *sql) {
    if (sqlite3_exec(db, sql, 0, 0, 0) != SQLITE_OK) fail(sql);
}

/* Each text is prepared once. */
static sqlite3_stmt *text(sqlite3_stmt **kept, const char *sql) {
    if (!*kept && sqlite3_prepare_v3(db, sql, -1, SQLITE_PREPARE_PERSISTENT, kept, 0)) fail(sql);
    return *kept;
}

#define TEXT(name, sql)                                   \
    static sqlite3_stmt *name(void) {                     \
        static sqlite3_stmt *kept;                        \
        return text(&kept, sql);                          \
    }

TEXT(begin, "BEGIN")
TEXT(commit, "COMMIT")
TEXT(find_tenant, "SELECT no FROM tenant WHERE digest = ?1")
TEXT(find_clock, "SELECT clock FROM clock WHERE tenant = ?1")
TEXT(set_clock, "UPDATE clock SET clock = ?2 WHERE tenant = ?1")
TEXT(find_transfer, "SELECT id, debit, credit, amount, pending_id, user_data_128, user_data_64, "
    "user_data_32, timeout, ledger, code, flags, timestamp, at_clock FROM transfer "
    "WHERE tenant = ?1 AND id = ?2")
TEXT(find_failed, "SELECT id FROM failed WHERE tenant = ?1 AND id = ?2")
TEXT(find_account, "SELECT id, user_data_128, user_data_64, user_data_32, ledger, code, flags, "
    "timestamp FROM account WHERE tenant = ?1 AND id = ?2")
TEXT(find_balance, "SELECT account, dp, dd, cp, cc FROM balance WHERE tenant = ?1 AND account = ?2")
TEXT(find_status, "SELECT transfer, state, due FROM status WHERE tenant = ?1 AND transfer = ?2")
TEXT(add_account, "INSERT INTO account (tenant, id, user_data_128, user_data_64, user_data_32, "
    "ledger, code, flags, timestamp) VALUES (?1, ?2, ?3, ?4, ?5, ?6, ?7, ?8, ?9)")
TEXT(add_balance, "INSERT INTO balance (tenant, account, dp, dd, cp, cc) "
    "VALUES (?1, ?2, ?3, ?4, ?5, ?6)")
TEXT(add_transfer, "INSERT INTO transfer (tenant, id, debit, credit, amount, pending_id, "
    "user_data_128, user_data_64, user_data_32, timeout, ledger, code, flags, timestamp, at_clock) "
    "VALUES (?1, ?2, ?3, ?4, ?5, ?6, ?7, ?8, ?9, ?10, ?11, ?12, ?13, ?14, ?15)")
TEXT(set_balance, "UPDATE balance SET tenant = ?1, account = ?2, dp = ?3, dd = ?4, cp = ?5, "
    "cc = ?6 WHERE tenant = ?1 AND account = ?2")
TEXT(add_status, "INSERT INTO status (tenant, transfer, state, due) VALUES (?1, ?2, ?3, ?4)")
TEXT(set_status, "UPDATE status SET tenant = ?1, transfer = ?2, state = ?3, due = ?4 "
    "WHERE tenant = ?1 AND transfer = ?2")
TEXT(add_history, "INSERT INTO history (tenant, account, timestamp, dp, dd, cp, cc) VALUES "
    "(?1, ?2, ?3, ?4, ?5, ?6, ?7), (?1, ?8, ?9, ?10, ?11, ?12, ?13)")

#define ENTRY                                                                                   \
    "SELECT history.account, history.timestamp, history.dp, history.dd, history.cp, "           \
    "history.cc, transfer.id, transfer.debit, transfer.credit, transfer.amount, "               \
    "transfer.pending_id, transfer.user_data_128, transfer.user_data_64, "                      \
    "transfer.user_data_32, transfer.timeout, transfer.ledger, transfer.code, transfer.flags, " \
    "transfer.timestamp, transfer.at_clock FROM history JOIN transfer ON transfer.tenant = ?1 " \
    "AND transfer.timestamp = history.timestamp WHERE history.tenant = ?1 "                     \
    "AND history.account = ?2 AND history.timestamp "

TEXT(entries_from, ENTRY ">= ?3 ORDER BY history.timestamp")
TEXT(entries_until, ENTRY "<= ?3 ORDER BY history.timestamp DESC")

static void put(sqlite3_stmt *s, int place, int64_t value) {
    if (sqlite3_bind_int64(s, place, value)) fail("bind");
}

static void put_wide(sqlite3_stmt *s, int place, uint64_t value) {
    wide bytes = {0};
    for (int i = 0; i < 8; i++) bytes[15 - i] = (uint8_t)(value >> (8 * i));
    if (sqlite3_bind_blob(s, place, bytes, 16, SQLITE_TRANSIENT)) fail("bind");
}

static void put_narrow(sqlite3_stmt *s, int place, uint64_t value) {
    uint8_t bytes[8];
    for (int i = 0; i < 8; i++) bytes[7 - i] = (uint8_t)(value >> (8 * i));
    if (sqlite3_bind_blob(s, place, bytes, 8, SQLITE_TRANSIENT)) fail("bind");
}

static uint64_t read_wide(sqlite3_stmt *s, int column) {
    const uint8_t *bytes = sqlite3_column_blob(s, column);
    uint64_t value = 0;
    for (int i = 8; i < 16; i++) value = value << 8 | bytes[i];
    return value;
}

/* Reads all columns of the row, as a caller would. */
static uint64_t read_row(sqlite3_stmt *s) {
    uint64_t sum = 0;
    for (int i = 0; i < sqlite3_column_count(s); i++)
        sum += sqlite3_column_type(s, i) == SQLITE_INTEGER
            ? (uint64_t)sqlite3_column_int64(s, i)
            : *(const uint8_t *)sqlite3_column_blob(s, i) + (uint64_t)sqlite3_column_bytes(s, i);
    return sum;
}

static void done(sqlite3_stmt *s) {
    if (sqlite3_step(s) != SQLITE_DONE) fail(sqlite3_sql(s));
    sqlite3_reset(s);
}

/* One row or none, read whole; the row's statement is left for the caller to reset. */
static int row(sqlite3_stmt *s) {
    int code = sqlite3_step(s);
    if (code == SQLITE_ROW) {
        volatile uint64_t sum = read_row(s);
        (void)sum;
        return 1;
    }
    if (code != SQLITE_DONE) fail(sqlite3_sql(s));
    return 0;
}

static int has(sqlite3_stmt *s, uint64_t id) {
    put(s, 1, tenant);
    put_wide(s, 2, id);
    int found = row(s);
    sqlite3_reset(s);
    return found;
}

/* Debits and credits, pending and posted. */
typedef struct {
    uint64_t dp, dd, cp, cc;
} sums;

static sums balance_of(uint64_t account) {
    sqlite3_stmt *s = find_balance();
    put(s, 1, tenant);
    put_wide(s, 2, account);
    if (!row(s)) fail("no balance");
    sums found = {read_wide(s, 1), read_wide(s, 2), read_wide(s, 3), read_wide(s, 4)};
    sqlite3_reset(s);
    return found;
}

static void put_sums(sqlite3_stmt *s, int place, sums b) {
    put_wide(s, place, b.dp);
    put_wide(s, place + 1, b.dd);
    put_wide(s, place + 2, b.cp);
    put_wide(s, place + 3, b.cc);
}

static void store_balance(sqlite3_stmt *s, uint64_t account, sums b) {
    put(s, 1, tenant);
    put_wide(s, 2, account);
    put_sums(s, 3, b);
    done(s);
}

static void store_transfer(transfer t, int64_t timestamp) {
    sqlite3_stmt *s = add_transfer();
    put(s, 1, tenant);
    put_wide(s, 2, t.id);
    put_wide(s, 3, t.debit);
    put_wide(s, 4, t.credit);
    put_wide(s, 5, 1);
    put_wide(s, 6, 0);
    put_wide(s, 7, 0);
    put_narrow(s, 8, 0);
    put(s, 9, 0);
    put(s, 10, t.timeout);
    put(s, 11, 7);
    put(s, 12, 1);
    put(s, 13, t.is_pending ? 2 : 0);
    put(s, 14, timestamp);
    put(s, 15, clock_now);
    done(s);
}

static void store_history(transfer t, int64_t timestamp, sums debit, sums credit) {
    sqlite3_stmt *s = add_history();
    put(s, 1, tenant);
    put_wide(s, 2, t.debit);
    put(s, 3, timestamp);
    put_sums(s, 4, debit);
    put_wide(s, 8, t.credit);
    put(s, 9, timestamp);
    put_sums(s, 10, credit);
    done(s);
}

static void store_status(sqlite3_stmt *s, uint64_t id, int state, int64_t due) {
    put(s, 1, tenant);
    put_wide(s, 2, id);
    put(s, 3, state);
    put(s, 4, due);
    done(s);
}

/* What a transfer meets, and the rows that keep it. */
static void judge_and_keep(transfer t, int64_t timestamp) {
    if (has(find_transfer(), t.id) || has(find_failed(), t.id)) fail("the id is taken");
    if (!has(find_account(), t.debit)) fail("no debit account");
    sums debit = balance_of(t.debit);
    if (!has(find_account(), t.credit)) fail("no credit account");
    sums credit = balance_of(t.credit);
    if (t.is_pending) debit.dp++, credit.cp++;
    else debit.dd++, credit.cc++;
    store_transfer(t, timestamp);
    store_balance(set_balance(), t.debit, debit);
    store_balance(set_balance(), t.credit, credit);
    if (t.is_pending)
        store_status(add_status(), t.id, 0, t.timeout ? timestamp + t.timeout * SECOND : 0);
    store_history(t, timestamp, debit, credit);
}

static void expire(deadline d) {
    sqlite3_stmt *s = find_transfer();
    if (!has(find_status(), d.id)) fail("no status");
    put(s, 1, tenant);
    put_wide(s, 2, d.id);
    if (!row(s)) fail("no transfer");
    uint64_t debit = read_wide(s, 1), credit = read_wide(s, 2);
    sqlite3_reset(s);
    sums of_debit = balance_of(debit), of_credit = balance_of(credit);
    of_debit.dp--, of_credit.cp--;
    store_balance(set_balance(), debit, of_debit);
    store_balance(set_balance(), credit, of_credit);
    if (!has(find_status(), d.id)) fail("no status");
    store_status(set_status(), d.id, 3, d.due);
}

static void look_up_tenant(void) {
    uint8_t digest[32] = {(uint8_t)tenant};
    sqlite3_bind_blob(find_tenant(), 1, digest, 32, SQLITE_STATIC);
    if (!row(find_tenant())) fail("no tenant");
    sqlite3_reset(find_tenant());
}

static int64_t read_clock(void) {
    put(find_clock(), 1, tenant);
    if (!row(find_clock())) fail("no clock");
    int64_t found = sqlite3_column_int64(find_clock(), 0);
    sqlite3_reset(find_clock());
    return found;
}

/* What a batch does inside its transaction. */
static void keep_batch(const transfer *batch, int count) {
    int64_t before = read_clock();
    clock_now = (before > now ? before : now) + count;
    while (deadline_next < deadline_count && deadlines[deadline_next].due <= clock_now)
        expire(deadlines[deadline_next++]);
    put(set_clock(), 1, tenant);
    put(set_clock(), 2, clock_now);
    done(set_clock());
    for (int i = 0; i < count; i++) judge_and_keep(batch[i], clock_now - count + i + 1);
    read_clock();
}

static void run_batch(const transfer *batch, int count) {
    look_up_tenant();
    done(begin());
    keep_batch(batch, count);
    done(commit());
}

static void open_file(const char *path) {
    if (sqlite3_open(path, &db)) fail(path);
    run("PRAGMA page_size = 4096");
    run("PRAGMA journal_mode = WAL");
    run("PRAGMA synchronous = FULL");
    run("PRAGMA foreign_keys = ON");
    run("PRAGMA cache_size = 20000");
    run("PRAGMA wal_autocheckpoint = 1000");
}

static void open_accounts(uint64_t accounts) {
    char sql[200];
    snprintf(sql, sizeof sql, "INSERT INTO tenant VALUES (%d, 'North %d', x'%02x%062d')",
        (int)tenant, (int)tenant, (unsigned)tenant, 0);
    run(sql);
    snprintf(sql, sizeof sql, "INSERT INTO clock VALUES (%d, 0)", (int)tenant);
    run(sql);
    for (uint64_t id = 1; id <= accounts; id++) {
        sqlite3_stmt *s = add_account();
        put(s, 1, tenant);
        put_wide(s, 2, id);
        put_wide(s, 3, 0);
        put_narrow(s, 4, 0);
        put(s, 5, 0);
        put(s, 6, 7);
        put(s, 7, 10);
        put(s, 8, 8);
        put(s, 9, (int64_t)id);
        done(s);
        store_balance(add_balance(), id, (sums){0});
    }
}

static void make_file(const char *path, uint64_t accounts, int tenants) {
    open_file(path);
    run("BEGIN");
    for (size_t i = 0; i < sizeof TABLES / sizeof *TABLES; i++) run(TABLES[i]);
    run("INSERT INTO schema (version) VALUES (3)");
    for (tenant = 1; tenant <= tenants; tenant++) open_accounts(accounts);
    tenant = 1;
    run("COMMIT");
}

/* The accounts of a place are the same in `bench/storage.rt.in`. */
static transfer transfer_at(uint64_t place, uint64_t accounts) {
    uint64_t mixed = place * 0x9E3779B97F4A7C15u;
    uint64_t debit = (mixed >> 40) % accounts;
    uint64_t credit = (debit + 1 + (mixed >> 20) % 1048576 % (accounts - 1)) % accounts;
    return (transfer){.id = FIRST_ID + place, .debit = 1 + debit, .credit = 1 + credit};
}

static void draw(transfer *batch, uint64_t accounts, int size) {
    for (int i = 0; i < size; i++) batch[i] = transfer_at(next_place + i, accounts);
    next_place += size;
}

/* Sends so many transfers in batches of a size; answers the microseconds that it took. */
static double send(uint64_t accounts, int count, int size, int64_t timeout) {
    static transfer batch[1000];
    double start = micros();
    for (int sent = 0; sent < count; sent += size) {
        draw(batch, accounts, size);
        for (int i = 0; i < size; i++) {
            batch[i].is_pending = timeout > 0;
            batch[i].timeout = timeout;
        }
        run_batch(batch, size);
    }
    return micros() - start;
}

/* A case, its microseconds, and how often it was done. */
static void tell(const char *what, uint64_t about, uint64_t stored, int size, double total,
    int count) {
    printf("%s/%llu/%llu/%d %.0f %d\n", what, (unsigned long long)about,
        (unsigned long long)stored, size, total, count);
}

static void send_sizes(const char *what, uint64_t accounts, uint64_t stored) {
    static const struct { int count, size; } sizes[] = {{10000, 1000}, {5000, 100}, {3000, 1}};
    for (int i = 0; i < 3; i++) {
        double total = send(accounts, sizes[i].count, sizes[i].size, 0);
        tell(what, accounts, stored, sizes[i].size, total, sizes[i].count);
    }
}

static void writes(uint64_t accounts, int stored) {
    send(accounts, stored, 1000, 0);
    send_sizes("write", accounts, stored);
}

static void dues(uint64_t accounts, int open) {
    deadlines = malloc(sizeof *deadlines * DUE_SOON);
    send(accounts, DUE_SOON, DUE_SOON, 1);
    for (int i = 0; i < DUE_SOON; i++)
        deadlines[deadline_count++] = (deadline){now + i + 1 + SECOND, FIRST_ID + i};
    send(accounts, open, 1000, 86400);
    now += 2LL * SECOND;
    send_sizes("due", accounts, open);
}

static void page(sqlite3_stmt *s, uint64_t account, int64_t bound, int limit) {
    look_up_tenant();
    read_clock();
    if (!has(find_account(), account)) fail("no account");
    put(s, 1, tenant);
    put_wide(s, 2, account);
    put(s, 3, bound);
    for (int i = 0; i < limit && row(s); i++) continue;
    sqlite3_reset(s);
}

static void pages(const char *what, int length, sqlite3_stmt *s, int64_t bound) {
    double start = micros();
    for (int i = 0; i < 100; i++) page(s, 1, bound, 100);
    printf("page/%s/%d %.0f 100\n", what, length, micros() - start);
}

static void lookups(int length) {
    double start = micros();
    for (uint64_t i = 0; i < 5000; i++) {
        look_up_tenant();
        done(begin());
        read_clock();
        if (!has(find_transfer(), FIRST_ID + i * 7919 % length)) fail("no transfer");
        done(commit());
    }
    printf("lookup/%d %.0f 5000\n", length, micros() - start);
}

/* Every row of every table, in the order of its key, as an opening reads them. */
static void opening(const char *path, int length) {
    static const char *const all[] = {"tenant ORDER BY no", "clock ORDER BY tenant",
        "account ORDER BY tenant, id", "transfer ORDER BY tenant, id",
        "balance ORDER BY tenant, account", "status ORDER BY tenant, transfer",
        "history ORDER BY tenant, account, timestamp", "failed ORDER BY tenant, id"};
    db = 0;
    double start = micros();
    open_file(path);
    for (size_t i = 0; i < sizeof all / sizeof *all; i++) {
        sqlite3_stmt *s;
        char sql[100];
        snprintf(sql, sizeof sql, "SELECT * FROM %s", all[i]);
        if (sqlite3_prepare_v2(db, sql, -1, &s, 0)) fail(sql);
        while (row(s)) continue;
        sqlite3_finalize(s);
    }
    printf("opening/%d %.0f 1\n", length, micros() - start);
}

static void reads(const char *path, int length) {
    static transfer batch[1000];
    for (int sent = 0; sent < length; sent += 1000) {
        for (int i = 0; i < 1000; i++) {
            uint64_t place = next_place++;
            batch[i] = (transfer){.id = FIRST_ID + place, .debit = 1, .credit = 2 + place % 99};
        }
        run_batch(batch, 1000);
    }
    lookups(length);
    pages("start", length, entries_from(), 0);
    pages("middle", length, entries_from(), START + length / 2);
    pages("end", length, entries_until(), INT64_MAX);
    double start = micros();
    page(entries_from(), 1, 0, INT32_MAX);
    printf("statement/%d %.0f %d\n", length, micros() - start, length);
    opening(path, length);
}

/* Batches of tenants in turn, of which some share a commit, for so many seconds. */
static void shared(uint64_t accounts, int size, int many, int tenants, double seconds) {
    static transfer batch[1000];
    double start = micros(), end = start + 1e6 * seconds;
    clock_t used = clock();
    uint64_t first = next_place;
    while (micros() < end) {
        done(begin());
        for (int i = 0; i < many; i++) {
            draw(batch, accounts, size);
            look_up_tenant();
            keep_batch(batch, size);
            tenant = tenant % tenants + 1;
        }
        done(commit());
    }
    printf("%llu %.3f %.3f\n", (unsigned long long)(next_place - first), (micros() - start) / 1e6,
        (double)(clock() - used) / CLOCKS_PER_SEC);
}

int main(int count, char **words) {
    if (count < 5) fail("peer FILE write|due|read|shared ACCOUNTS STORED");
    uint64_t accounts = strtoull(words[3], 0, 10);
    int stored = atoi(words[4]), tenants = count == 8 ? atoi(words[6]) : 1;
    make_file(words[1], accounts, tenants);
    if (count == 8) shared(accounts, stored, atoi(words[5]), tenants, atof(words[7]));
    else if (!strcmp(words[2], "read")) reads(words[1], stored);
    else if (!strcmp(words[2], "due")) dues(accounts, stored);
    else writes(accounts, stored);
    return 0;
}
