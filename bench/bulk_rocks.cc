// bench/bulk, by RocksDB's TransactionDB in memory, without a log: a key is locked by GetForUpdate, which reads no value.
#include "bulk.h"
#include <memory>
#include <rocksdb/db.h>
#include <rocksdb/env.h>
#include <rocksdb/utilities/transaction.h>
#include <rocksdb/utilities/transaction_db.h>
#include <vector>

static rocksdb::TransactionDB *database;
static std::vector<std::unique_ptr<rocksdb::Transaction>> open;

static void opens(void)
{
    rocksdb::Options options;
    options.create_if_missing = true;
    options.env = rocksdb::NewMemEnv(rocksdb::Env::Default());
    rocksdb::TransactionDBOptions limits;
    limits.max_num_locks = -1;
    must(rocksdb::TransactionDB::Open(options, limits, "/bulk", &database).ok(), "TransactionDB::Open");
    open.resize(transactions);
}

static void begins(size_t transaction)
{
    rocksdb::WriteOptions write;
    write.disableWAL = true;
    rocksdb::TransactionOptions with;
    with.lock_timeout = -1;
    open[transaction].reset(database->BeginTransaction(write, with));
}

static void locks(size_t transaction, const char *name)
{
    rocksdb::Status found = open[transaction]->GetForUpdate({}, rocksdb::Slice(name, length), static_cast<std::string *>(nullptr));
    must(found.ok() || found.IsNotFound(), "Transaction::GetForUpdate");
}

static void commits(size_t transaction)
{
    must(open[transaction]->Commit().ok(), "Transaction::Commit");
    open[transaction].reset();
}
