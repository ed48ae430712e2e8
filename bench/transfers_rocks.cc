// What crates/bench_locks does, by RocksDB's TransactionDB: `transfers_rocks THREADS NAMES MILLISECONDS` makes transactions of four locks each
// in this many threads. It prints how many nanoseconds that took, how many transactions were committed, and how often one was aborted after a
// deadlock. The database is in memory and stays empty: a transaction asks for its locks by GetForUpdate with no place for a value, which
// reads nothing, and writes nothing. Each thread uses one transaction object again and again.
#include <rocksdb/db.h>
#include <rocksdb/env.h>
#include <rocksdb/utilities/transaction.h>
#include <rocksdb/utilities/transaction_db.h>

#include <atomic>
#include <barrier>
#include <chrono>
#include <cstdint>
#include <cstdio>
#include <cstdlib>
#include <memory>
#include <string>
#include <thread>
#include <vector>

using rocksdb::Status;

struct Done {
    uint64_t commits = 0, aborts = 0;
};

static std::unique_ptr<rocksdb::TransactionDB> database;
static std::vector<std::string> names;
static std::atomic<bool> stop;

static void must(const Status &status)
{
    if (!status.ok()) {
        fprintf(stderr, "transfers_rocks: %s\n", status.ToString().c_str());
        exit(1);
    }
}

// The generator PCG-XSH-RR, on stream 0.
class Words
{
  public:
    explicit Words(uint64_t seed)
    {
        step();
        state_ += seed;
        step();
    }
    uint32_t next()
    {
        uint64_t old = state_;
        step();
        uint32_t shifted = static_cast<uint32_t>((old >> 18 ^ old) >> 27), turn = static_cast<uint32_t>(old >> 59);
        return shifted >> turn | shifted << (-turn & 31);
    }

  private:
    void step()
    {
        state_ = state_ * 6364136223846793005u + 1;
    }
    uint64_t state_ = 0;
};

// Four numbers below the count of names by chance, no two the same.
static void four_names(Words &words, uint32_t *chosen)
{
    for (int count = 0; count < 4;) {
        uint32_t number = static_cast<uint32_t>(uint64_t{words.next()} * names.size() >> 32);
        bool is_new = true;
        for (int place = 0; place < count; place++)
            is_new &= chosen[place] != number;
        if (is_new)
            chosen[count++] = number;
    }
}

// Whether the transaction had all of its locks.
static bool transfer(rocksdb::Transaction *&transaction, const uint32_t *chosen)
{
    rocksdb::WriteOptions write;
    rocksdb::TransactionOptions options;
    options.deadlock_detect = true;
    options.lock_timeout = -1;
    write.disableWAL = true;
    transaction = database->BeginTransaction(write, options, transaction);
    for (int place = 0; place < 4; place++) {
        Status status = transaction->GetForUpdate(rocksdb::ReadOptions(), names[chosen[place]], static_cast<std::string *>(nullptr));
        if (status.IsBusy() && status.subcode() == Status::kDeadlock) {
            must(transaction->Rollback());
            return false;
        }
        must(status);
    }
    must(transaction->Commit());
    return true;
}

static Done work(uint64_t seed)
{
    Words words(seed);
    Done done;
    uint32_t chosen[4];
    rocksdb::Transaction *transaction = nullptr;
    while (!stop) {
        four_names(words, chosen);
        while (!transfer(transaction, chosen))
            done.aborts++;
        done.commits++;
    }
    delete transaction;
    return done;
}

int main(int count, char **argument)
{
    if (count != 4)
        return 2;
    int threads = atoi(argument[1]);
    for (int number = 0; number < atoi(argument[2]); number++) {
        char name[20];
        snprintf(name, sizeof name, "accounts/%07d", number);
        names.push_back(name);
    }
    std::unique_ptr<rocksdb::Env> memory(rocksdb::NewMemEnv(rocksdb::Env::Default()));
    rocksdb::Options options;
    options.env = memory.get();
    options.create_if_missing = true;
    rocksdb::TransactionDB *opened;
    must(rocksdb::TransactionDB::Open(options, rocksdb::TransactionDBOptions(), "/transfers", &opened));
    database.reset(opened);
    std::barrier gate(threads + 1);
    std::vector<Done> done(threads);
    std::vector<std::thread> started;
    for (int thread = 0; thread < threads; thread++)
        started.emplace_back([&gate, &done, thread] {
            gate.arrive_and_wait();
            done[thread] = work(thread + 1);
        });
    gate.arrive_and_wait();
    auto start = std::chrono::steady_clock::now();
    std::this_thread::sleep_for(std::chrono::milliseconds(atoi(argument[3])));
    auto took = std::chrono::steady_clock::now() - start;
    stop = true;
    uint64_t commits = 0, aborts = 0;
    for (int thread = 0; thread < threads; thread++) {
        started[thread].join();
        commits += done[thread].commits;
        aborts += done[thread].aborts;
    }
    printf("%lld %llu %llu\n", static_cast<long long>(std::chrono::nanoseconds(took).count()), static_cast<unsigned long long>(commits),
        static_cast<unsigned long long>(aborts));
    database.reset();
}
