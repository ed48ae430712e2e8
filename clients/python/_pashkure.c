/* The lock manager of pashkure.h in Python, for pashkure/in_process.py. The GIL is held throughout each call, so that one call at a time uses a
 * manager. What a call ended is noted before any Python runs, which a signal may break off. */
#define PY_SSIZE_T_CLEAN
#include <Python.h>
#include <pashkure.h>

/* How many waits of a cycle are told behind the one that was refused. */
#define LONGEST_PATH 16

/* A transaction, from its begin on: what its thread or task is to be told. */
typedef struct Seat {
    PyObject_HEAD PyObject *news; /* is called when there is something to be told */
    pashkure_key key;
    bool is_granted; /* its last wait has ended by a grant */
    bool is_due;     /* news is to be called */
    struct Seat *next_due;
} Seat;

typedef struct Manager {
    PyObject_HEAD pashkure core;
    pashkure_config config;
    Seat **seats; /* by slot, as long as the transaction is live */
    Seat *first_due, *last_due;
} Manager;

static PyTypeObject seat_type, manager_type;

/* The same object, with one reference more. (Py_NewRef is of Python 3.10.) */
static void *kept(void *object)
{
    return Py_INCREF((PyObject *)object), object;
}

static PyObject *text_of(pashkure_key key)
{
    return PyBytes_FromFormat("%u.%u", (unsigned)key.slot, (unsigned)key.generation);
}

static PyObject *seat_new(PyTypeObject *type, PyObject *words, PyObject *named)
{
    PyObject *news;
    Seat *seat;
    (void)named;
    if (!PyArg_ParseTuple(words, "O", &news))
        return NULL;
    seat = (Seat *)type->tp_alloc(type, 0);
    if (seat == NULL)
        return NULL;
    seat->news = kept(news);
    return (PyObject *)seat;
}

static int seat_traverse(PyObject *self, visitproc visit, void *arg)
{
    Py_VISIT(((Seat *)self)->news);
    return 0;
}

static int seat_clear(PyObject *self)
{
    Py_CLEAR(((Seat *)self)->news);
    return 0;
}

static void seat_dealloc(PyObject *self)
{
    PyObject_GC_UnTrack(self);
    (void)seat_clear(self);
    Py_TYPE(self)->tp_free(self);
}

static PyObject *seat_key(PyObject *self, void *unused)
{
    return (void)unused, text_of(((Seat *)self)->key);
}
static PyObject *seat_slot(PyObject *self, void *unused)
{
    return (void)unused, PyLong_FromUnsignedLong(((Seat *)self)->key.slot);
}

/* Whether its last wait has ended by a grant. */
static PyObject *seat_is_granted(PyObject *self, PyObject *unused)
{
    return (void)unused, PyBool_FromLong(((Seat *)self)->is_granted);
}

/* Notes the waits that the last call ended by a grant. */
static void note(Manager *manager)
{
    pashkure_wake woken;
    for (size_t i = 0; pashkure_woken(&manager->core, i, &woken); i++) {
        Seat *seat = manager->seats[woken.key.slot];
        if (seat == NULL)
            continue;
        seat->is_granted = true;
        if (seat->is_due)
            continue;
        seat->is_due = true;
        seat->next_due = NULL;
        Py_INCREF(seat);
        if (manager->first_due == NULL)
            manager->first_due = seat;
        else
            manager->last_due->next_due = seat;
        manager->last_due = seat;
    }
}

/* Tells those whose waits have ended. This may run Python, and that may make calls here. */
static void tell(Manager *manager)
{
    while (manager->first_due != NULL) {
        Seat *seat = manager->first_due;
        PyObject *told;
        manager->first_due = seat->next_due;
        seat->is_due = false;
        told = seat->news == NULL ? kept(Py_None) : PyObject_CallObject(seat->news, NULL);
        if (told == NULL && PyErr_ExceptionMatches(PyExc_RuntimeError))
            PyErr_Clear(); /* the lock was released before */
        else if (told == NULL)
            PyErr_WriteUnraisable((PyObject *)seat);
        Py_XDECREF(told);
        Py_DECREF(seat);
    }
}

static PyObject *manager_new(PyTypeObject *type, PyObject *words, PyObject *named)
{
    static char *names[] = {"transactions", "names", "name_bytes", "names_each", "seed", NULL};
    pashkure_config config = PASHKURE_CONFIG;
    unsigned transactions, count, name_bytes, names_each;
    unsigned long long seed;
    pashkure_result result;
    Manager *manager;
    if (!PyArg_ParseTupleAndKeywords(words, named, "IIIIK", names, &transactions, &count, &name_bytes, &names_each, &seed))
        return NULL;
    config.transactions = transactions, config.names = count, config.name_bytes = name_bytes, config.names_each = names_each, config.seed = seed;
    manager = (Manager *)type->tp_alloc(type, 0);
    if (manager == NULL)
        return NULL;
    manager->config = config;
    result = pashkure_open(&manager->core, &config);
    if (result == PASHKURE_OK)
        manager->seats = PyMem_Calloc(transactions, sizeof(Seat *));
    if (result == PASHKURE_OK && manager->seats != NULL)
        return (PyObject *)manager;
    Py_DECREF(manager);
    if (result == PASHKURE_OK || result == PASHKURE_NO_MEMORY)
        return PyErr_NoMemory();
    PyErr_SetString(result == PASHKURE_BAD_VERSION ? PyExc_ImportError : PyExc_ValueError, pashkure_message(result));
    return NULL;
}

static void manager_dealloc(PyObject *self)
{
    Manager *manager = (Manager *)self;
    pashkure_close(&manager->core);
    for (uint32_t slot = 0; manager->seats != NULL && slot < manager->config.transactions; slot++)
        Py_XDECREF(manager->seats[slot]);
    PyMem_Free(manager->seats);
    Py_TYPE(self)->tp_free(self);
}

static PyObject *manager_close(PyObject *self, PyObject *unused)
{
    (void)unused;
    pashkure_close(&((Manager *)self)->core);
    Py_RETURN_NONE;
}

/* In the child of a fork: the manager is closed here, and its memory is left as it is, since no call may be made. */
static PyObject *manager_forget(PyObject *self, PyObject *unused)
{
    const pashkure closed = PASHKURE_CLOSED;
    (void)unused;
    ((Manager *)self)->core = closed;
    Py_RETURN_NONE;
}

static PyObject *manager_begin(PyObject *self, PyObject *words)
{
    Manager *manager = (Manager *)self;
    Seat *seat;
    pashkure_result result;
    if (!PyArg_ParseTuple(words, "O!", &seat_type, &seat))
        return NULL;
    result = pashkure_begin(&manager->core, &seat->key);
    if (result == PASHKURE_OK)
        manager->seats[seat->key.slot] = kept(seat);
    return PyLong_FromLong(result);
}

/* The name of a number as bytes. NULL without an exception: nobody owns it. */
static PyObject *name_of(const Manager *manager, uint32_t number, pashkure_key *owner)
{
    char bytes[1024];
    size_t length = 0;
    if (pashkure_name(&manager->core, number, bytes, sizeof bytes, &length, owner) != PASHKURE_OK)
        return NULL;
    return PyBytes_FromStringAndSize(bytes, (Py_ssize_t)length);
}

/* Adds a new object to a list, NULL if it could not be made. */
static bool adds(PyObject *list, PyObject *item)
{
    const bool is_added = item != NULL && PyList_Append(list, item) == 0;
    Py_XDECREF(item);
    return is_added;
}

/* Adds the waits of the path from one transaction to another one: the key of each that waits and the name that it waits for, and ".." if there are
 * more than are told. */
static bool adds_path(const Manager *manager, PyObject *list, pashkure_key from, pashkure_key to)
{
    pashkure_key owner;
    pashkure_seen seen = {{0, 0}, {0, 0}, 0};
    bool is_over = false;
    for (int count = 0; !is_over && count < LONGEST_PATH; count++) {
        if (pashkure_look(&manager->core, from.slot, &seen) != PASHKURE_WAITS)
            return true;
        if (!adds(list, text_of(from)) || !adds(list, name_of(manager, seen.number, &owner)))
            return false;
        from = seen.holder;
        is_over = from.slot == to.slot && from.generation == to.generation;
    }
    return is_over || adds(list, PyBytes_FromString(".."));
}

typedef pashkure_result request(pashkure *locks, pashkure_key key, const void *name, size_t length);

/* The result of a request, and who owns the name if that is another one. After a deadlock also the rest of its cycle. The list is made before the
 * call, since the collector of garbage may run Python then. */
static PyObject *requested(PyObject *self, PyObject *words, request *call)
{
    Manager *manager = (Manager *)self;
    const char *name;
    Py_ssize_t length;
    Seat *seat;
    pashkure_key holder;
    pashkure_result result;
    PyObject *told;
    bool is_told;
    if (!PyArg_ParseTuple(words, "O!y#", &seat_type, &seat, &name, &length) || (told = PyList_New(0)) == NULL)
        return NULL;
    seat->is_granted = false;
    result = call(&manager->core, seat->key, name, (size_t)length);
    is_told = adds(told, PyLong_FromLong(result));
    if (is_told && (result == PASHKURE_WAITS || result == PASHKURE_DEADLOCK || result == PASHKURE_BUSY)
        && pashkure_owner(&manager->core, name, (size_t)length, &holder) == PASHKURE_OK)
        is_told = result == PASHKURE_DEADLOCK ? adds_path(manager, told, holder, seat->key) : adds(told, text_of(holder));
    if (!is_told)
        Py_CLEAR(told);
    return told;
}

static PyObject *manager_lock(PyObject *self, PyObject *words)
{
    return requested(self, words, pashkure_lock);
}
static PyObject *manager_try_lock(PyObject *self, PyObject *words)
{
    return requested(self, words, pashkure_try_lock);
}

static PyObject *manager_unlock(PyObject *self, PyObject *words)
{
    Manager *manager = (Manager *)self;
    const char *name;
    Py_ssize_t length;
    Seat *seat;
    pashkure_result result;
    if (!PyArg_ParseTuple(words, "O!y#", &seat_type, &seat, &name, &length))
        return NULL;
    result = pashkure_unlock(&manager->core, seat->key, name, (size_t)length);
    if (result == PASHKURE_OK)
        note(manager), tell(manager);
    return PyLong_FromLong(result);
}

typedef pashkure_result end(pashkure *locks, pashkure_key key);

/* Ends the transaction of the seat, which is not kept any more. */
static PyObject *ended(PyObject *self, PyObject *words, end *call)
{
    Manager *manager = (Manager *)self;
    Seat *seat;
    pashkure_result result;
    if (!PyArg_ParseTuple(words, "O!", &seat_type, &seat))
        return NULL;
    result = call(&manager->core, seat->key);
    if (result == PASHKURE_OK) {
        note(manager);
        Py_CLEAR(manager->seats[seat->key.slot]);
        tell(manager);
    }
    return PyLong_FromLong(result);
}

static PyObject *manager_commit(PyObject *self, PyObject *words)
{
    return ended(self, words, pashkure_commit);
}
static PyObject *manager_abort(PyObject *self, PyObject *words)
{
    return ended(self, words, pashkure_abort);
}

/* Takes the wait of the seat's transaction back. */
static PyObject *manager_cancel(PyObject *self, PyObject *words)
{
    Seat *seat;
    if (!PyArg_ParseTuple(words, "O!", &seat_type, &seat))
        return NULL;
    return PyLong_FromLong(pashkure_cancel(&((Manager *)self)->core, seat->key));
}

/* Who is in a slot: the key; of one that waits also the name and its holder. */
static PyObject *manager_status(PyObject *self, PyObject *words)
{
    Manager *manager = (Manager *)self;
    unsigned slot;
    pashkure_seen seen = {{0, 0}, {0, 0}, 0};
    pashkure_key owner;
    PyObject *name;
    if (!PyArg_ParseTuple(words, "I", &slot))
        return NULL;
    if (pashkure_look(&manager->core, slot, &seen) != PASHKURE_WAITS)
        return Py_BuildValue("(N)", text_of(seen.key));
    name = name_of(manager, seen.number, &owner);
    if (name == NULL)
        return NULL; /* of memory: a name that is waited for is owned */
    return Py_BuildValue("NNN", text_of(seen.key), name, text_of(seen.holder));
}

/* The names that are owned, each with the key of its owner. */
static PyObject *manager_owned(PyObject *self, PyObject *unused)
{
    Manager *manager = (Manager *)self;
    PyObject *owned = PyList_New(0);
    (void)unused;
    for (uint32_t number = 0; owned != NULL && number < manager->config.names; number++) {
        pashkure_key owner;
        PyObject *name = name_of(manager, number, &owner), *pair;
        if (name == NULL && PyErr_Occurred())
            Py_CLEAR(owned);
        if (name == NULL)
            continue;
        pair = Py_BuildValue("NN", name, text_of(owner));
        if (pair == NULL || PyList_Append(owned, pair) < 0)
            Py_CLEAR(owned);
        Py_XDECREF(pair);
    }
    return owned;
}

static PyObject *manager_owner(PyObject *self, PyObject *words)
{
    const char *name;
    Py_ssize_t length;
    pashkure_key owner;
    if (!PyArg_ParseTuple(words, "y#", &name, &length))
        return NULL;
    if (pashkure_owner(&((Manager *)self)->core, name, (size_t)length, &owner) != PASHKURE_OK)
        Py_RETURN_NONE;
    return text_of(owner);
}

static PyObject *manager_totals(PyObject *self, PyObject *unused)
{
    pashkure_counts counts;
    (void)unused;
    pashkure_totals(&((Manager *)self)->core, &counts);
    return Py_BuildValue("KKKKKKK", (unsigned long long)counts.begun, (unsigned long long)counts.committed, (unsigned long long)counts.aborted,
        (unsigned long long)counts.deadlocks, (unsigned long long)counts.waits, (unsigned long long)counts.withdrawn,
        (unsigned long long)counts.events);
}

static PyMethodDef seat_methods[] = {{"is_granted", seat_is_granted, METH_NOARGS, NULL}, {NULL, NULL, 0, NULL}};
static PyGetSetDef seat_members[] = {{"key", seat_key, NULL, NULL, NULL}, {"slot", seat_slot, NULL, NULL, NULL}, {NULL, NULL, NULL, NULL, NULL}};

static PyMethodDef manager_methods[] = {
    {"close", manager_close, METH_NOARGS, NULL},
    {"forget", manager_forget, METH_NOARGS, NULL},
    {"begin", manager_begin, METH_VARARGS, NULL},
    {"lock", manager_lock, METH_VARARGS, NULL},
    {"try_lock", manager_try_lock, METH_VARARGS, NULL},
    {"unlock", manager_unlock, METH_VARARGS, NULL},
    {"commit", manager_commit, METH_VARARGS, NULL},
    {"abort", manager_abort, METH_VARARGS, NULL},
    {"cancel", manager_cancel, METH_VARARGS, NULL},
    {"status", manager_status, METH_VARARGS, NULL},
    {"owned", manager_owned, METH_NOARGS, NULL},
    {"owner", manager_owner, METH_VARARGS, NULL},
    {"totals", manager_totals, METH_NOARGS, NULL},
    {NULL, NULL, 0, NULL},
};

static PyTypeObject seat_type = {
    PyVarObject_HEAD_INIT(NULL, 0).tp_name = "_pashkure.Seat",
    .tp_basicsize = sizeof(Seat),
    .tp_flags = Py_TPFLAGS_DEFAULT | Py_TPFLAGS_HAVE_GC,
    .tp_new = seat_new,
    .tp_dealloc = seat_dealloc,
    .tp_traverse = seat_traverse,
    .tp_clear = seat_clear,
    .tp_methods = seat_methods,
    .tp_getset = seat_members,
};

static PyTypeObject manager_type = {
    PyVarObject_HEAD_INIT(NULL, 0).tp_name = "_pashkure.Manager",
    .tp_basicsize = sizeof(Manager),
    .tp_flags = Py_TPFLAGS_DEFAULT,
    .tp_new = manager_new,
    .tp_dealloc = manager_dealloc,
    .tp_methods = manager_methods,
};

static struct PyModuleDef module = {PyModuleDef_HEAD_INIT, .m_name = "_pashkure", .m_size = -1};

PyMODINIT_FUNC PyInit__pashkure(void);

PyMODINIT_FUNC PyInit__pashkure(void)
{
    PyObject *made;
    if (PyType_Ready(&seat_type) < 0 || PyType_Ready(&manager_type) < 0)
        return NULL;
    made = PyModule_Create(&module);
    if (made == NULL)
        return NULL;
    if (PyModule_AddObject(made, "Seat", kept(&seat_type)) < 0 || PyModule_AddObject(made, "Manager", kept(&manager_type)) < 0)
        Py_CLEAR(made);
    return made;
}
