/* The tables of the current schema, as the crate `ledger_sql` makes them. */
static const char *const TABLES[] = {
    "CREATE TABLE schema (one INTEGER PRIMARY KEY NOT NULL CHECK (one = 1), version INTEGER NOT "
    "NULL) STRICT",
    "CREATE TABLE tenant (no INTEGER PRIMARY KEY NOT NULL, name TEXT NOT NULL UNIQUE, digest "
    "BLOB NOT NULL UNIQUE CHECK (length(digest) = 32)) STRICT",
    "CREATE TABLE clock (tenant INTEGER PRIMARY KEY NOT NULL REFERENCES tenant (no), clock "
    "INTEGER NOT NULL) STRICT",
    "CREATE TABLE account (tenant INTEGER NOT NULL REFERENCES tenant (no), id BLOB NOT NULL "
    "CHECK (length(id) = 16), user_data_128 BLOB NOT NULL CHECK (length(user_data_128) = 16), "
    "user_data_64 BLOB NOT NULL CHECK (length(user_data_64) = 8), user_data_32 INTEGER NOT "
    "NULL, ledger INTEGER NOT NULL, code INTEGER NOT NULL, flags INTEGER NOT NULL, timestamp "
    "INTEGER NOT NULL, PRIMARY KEY (tenant, id), UNIQUE (tenant, timestamp)) STRICT",
    "CREATE TABLE transfer (tenant INTEGER NOT NULL REFERENCES tenant (no), id BLOB NOT NULL "
    "CHECK (length(id) = 16), debit BLOB NOT NULL CHECK (length(debit) = 16), credit BLOB NOT "
    "NULL CHECK (length(credit) = 16), amount BLOB NOT NULL CHECK (length(amount) = 16), "
    "pending_id BLOB NOT NULL CHECK (length(pending_id) = 16), user_data_128 BLOB NOT NULL "
    "CHECK (length(user_data_128) = 16), user_data_64 BLOB NOT NULL CHECK (length(user_data_64) "
    "= 8), user_data_32 INTEGER NOT NULL, timeout INTEGER NOT NULL, ledger INTEGER NOT NULL, "
    "code INTEGER NOT NULL, flags INTEGER NOT NULL, timestamp INTEGER NOT NULL, at_clock "
    "INTEGER NOT NULL, PRIMARY KEY (tenant, id), UNIQUE (tenant, timestamp)) STRICT",
    "CREATE TABLE balance (tenant INTEGER NOT NULL REFERENCES tenant (no), account BLOB NOT "
    "NULL CHECK (length(account) = 16), dp BLOB NOT NULL CHECK (length(dp) = 16), dd BLOB NOT "
    "NULL CHECK (length(dd) = 16), cp BLOB NOT NULL CHECK (length(cp) = 16), cc BLOB NOT NULL "
    "CHECK (length(cc) = 16), PRIMARY KEY (tenant, account)) STRICT",
    "CREATE TABLE status (tenant INTEGER NOT NULL REFERENCES tenant (no), transfer BLOB NOT "
    "NULL CHECK (length(transfer) = 16), state INTEGER NOT NULL, due INTEGER NOT NULL, PRIMARY "
    "KEY (tenant, transfer)) STRICT",
    "CREATE TABLE history (tenant INTEGER NOT NULL REFERENCES tenant (no), account BLOB NOT "
    "NULL CHECK (length(account) = 16), timestamp INTEGER NOT NULL, dp BLOB NOT NULL CHECK "
    "(length(dp) = 16), dd BLOB NOT NULL CHECK (length(dd) = 16), cp BLOB NOT NULL CHECK "
    "(length(cp) = 16), cc BLOB NOT NULL CHECK (length(cc) = 16), PRIMARY KEY (tenant, account, "
    "timestamp)) STRICT",
    "CREATE TABLE failed (tenant INTEGER NOT NULL REFERENCES tenant (no), id BLOB NOT NULL "
    "CHECK (length(id) = 16), PRIMARY KEY (tenant, id)) STRICT",
};
