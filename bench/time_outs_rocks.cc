// What `bench_locks last` of crates/bench_locks does, by RocksDB's TransactionDB: `time_outs_rocks WAITING own|carried` lets this many transactions
// wait in a chain, each in a thread, and the last one asks with a time of 20 ms. If `carried`, the front of the chain blocks while the last one
// waits, else before it. It prints how many nanoseconds after its time the last one came back. Each wait looks for a deadlock, along the whole
// chain. The database is in memory and stays empty (transfers_rocks.cc). The program ends at once, and all others wait still: one unlock wakes all
// who wait for a name of the same stripe, so with 4,095 of them the chain would end after more than a minute.
#include <rocksdb/db.h>
#include <rocksdb/env.h>
#include <rocksdb/utilities/transaction.h>
#include <rocksdb/utilities/transaction_db.h>
#include <unistd.h>

#include <atomic>
#include <barrier>
#include <chrono>
#include <cstdint>
#include <cstdio>
#include <cstdlib>
#include <memory>
#include <string>
#include <thread>
#include <vector>

using rocksdb::Status;
using std::chrono::milliseconds;
using std::chrono::steady_clock;

constexpr int kMost = 4095;
constexpr milliseconds kLimit(20), kLater(10), kMinute(60'000);

static std::unique_ptr<rocksdb::TransactionDB> database;

static void must(const Status &status)
{
    if (!status.ok()) {
        fprintf(stderr, "time_outs_rocks: %s\n", status.ToString().c_str());
        exit(1);
    }
}

// A chain, and when its last one came back.
class Chain
{
  public:
    Chain(int last, bool carried) : last_(last), carried_(carried), gate_(last + 1)
    {
    }

    void part(int number)
    {
        rocksdb::TransactionOptions options;
        options.deadlock_detect = true;
        options.deadlock_detect_depth = kMost + 1;
        options.lock_timeout = (number == last_ ? kLimit : kMinute).count();
        std::unique_ptr<rocksdb::Transaction> transaction(database->BeginTransaction(rocksdb::WriteOptions(), options));
        must(get(*transaction, number));
        gate_.arrive_and_wait();
        if (number == 0) {
            await_last();
        } else if (number == last_) {
            time_out(*transaction);
        } else {
            if (number == 1 && carried_)
                std::this_thread::sleep_for(settling() + kLater);
            must(get(*transaction, number - 1));
        }
    }

  private:
    // Prints how late the last one came back, and ends the program.
    void await_last() const
    {
        while (!is_back_)
            std::this_thread::sleep_for(milliseconds(1));
        if (late_.count() >= 0)
            printf("%lld\n", static_cast<long long>(late_.count()));
        fflush(stdout);
        _exit(0);
    }

    static Status get(rocksdb::Transaction &transaction, int number)
    {
        return transaction.GetForUpdate(rocksdb::ReadOptions(), std::to_string(number), static_cast<std::string *>(nullptr));
    }

    // The others wait after so long.
    milliseconds settling() const
    {
        return milliseconds(10 + last_ / 2);
    }

    void time_out(rocksdb::Transaction &transaction)
    {
        std::this_thread::sleep_for(settling());
        auto start = steady_clock::now();
        Status status = get(transaction, last_ - 1);
        auto took = steady_clock::now() - start;
        if (status.IsTimedOut())
            late_ = took - kLimit;
        else
            must(status);
        is_back_ = true;
    }

    const int last_;
    const bool carried_;
    std::barrier<> gate_;
    std::atomic<bool> is_back_ = false;
    std::chrono::nanoseconds late_{-1};
};

int main(int count, char **argument)
{
    int last = count == 3 ? atoi(argument[1]) : 0;
    if (last < 2 || last > kMost)
        return 2;
    std::unique_ptr<rocksdb::Env> memory(rocksdb::NewMemEnv(rocksdb::Env::Default()));
    rocksdb::Options options;
    options.env = memory.get();
    options.create_if_missing = true;
    rocksdb::TransactionDB *opened;
    must(rocksdb::TransactionDB::Open(options, rocksdb::TransactionDBOptions(), "/time_outs", &opened));
    database.reset(opened);
    Chain chain(last, std::string(argument[2]) == "carried");
    std::vector<std::thread> started;
    for (int number = 0; number <= last; number++)
        started.emplace_back([&chain, number] { chain.part(number); });
    for (auto &thread : started)
        thread.join();
}
