/* pashkure_message: the text of each result. A call from C cannot be handed text by the proved library, so this is C. */
#include "pashkure.h"

const char *pashkure_message(pashkure_result result)
{
    switch (result) {
    case PASHKURE_OK: return "done";
    case PASHKURE_HELD: return "the transaction owned the name before";
    case PASHKURE_WAITS: return "the transaction waits";
    case PASHKURE_DEADLOCK: return "the wait would close a cycle of waits";
    case PASHKURE_BUSY: return "another transaction owns the name";
    case PASHKURE_FREE: return "nobody owns it";
    case PASHKURE_TIMED_OUT: return "the name was not granted in time";
    case PASHKURE_INTERRUPTED: return "the request was interrupted";
    case PASHKURE_NOT_ASKED: return "a name before it was not granted";
    case PASHKURE_NO_TRANSACTION: return "the transaction has ended, or was never begun";
    case PASHKURE_WAITING: return "the transaction waits, and the call is for one that does not";
    case PASHKURE_NOT_WAITING: return "the transaction does not wait";
    case PASHKURE_NAME_EMPTY: return "the name is empty";
    case PASHKURE_NAME_TOO_LONG: return "the name is longer than the manager was opened for";
    case PASHKURE_NOT_OWNER: return "the transaction does not own the name";
    case PASHKURE_TRANSACTIONS_FULL: return "there are as many transactions as there can be";
    case PASHKURE_NAMES_FULL: return "as many names are owned as can be";
    case PASHKURE_LABELS_FULL: return "nobody can begin to wait any more: the manager has to be opened anew";
    case PASHKURE_TOO_MANY_NAMES: return "the transaction owns as many names as one may (names_each of the configuration)";
    case PASHKURE_COUNTS_FULL: return "as many events were counted as can be: the manager has to be opened anew";
    case PASHKURE_NOT_OPEN: return "the manager is closed";
    case PASHKURE_IN_USE: return "the manager is in use";
    case PASHKURE_BAD_VERSION: return "the library does not serve the header of the program, or the configuration did not begin as PASHKURE_CONFIG";
    case PASHKURE_BAD_TRANSACTIONS: return "transactions is out of range";
    case PASHKURE_BAD_NAMES: return "names is out of range";
    case PASHKURE_BAD_NAME_BYTES: return "name_bytes is out of range";
    case PASHKURE_NO_MEMORY: return "there is not enough memory";
    case PASHKURE_BAD_BUCKETS: return "buckets is out of range";
    case PASHKURE_RESULT_BITS_: break;
    }
    return "no result of this library";
}
