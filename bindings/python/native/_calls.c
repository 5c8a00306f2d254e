/* The module fowharimu._calls: judges a token and writes its payload in one call, in place of two by ctypes. It isn't linked with the library: it is
 * handed the addresses of the functions that ctypes found there. It is made for the stable interface of Python 3.9 and later. */
#define PY_SSIZE_T_CLEAN
#define Py_LIMITED_API 0x03090000
#include <Python.h>

#include <fowharimu.h>
#include <stdlib.h>

typedef uint32_t judge(fow_validator *, const uint8_t *, size_t, int64_t, fow_report *);
typedef uint32_t accepted_payload(fow_validator *, uint8_t *, size_t, size_t *);

/* What calls are made of: the functions, and the addresses of what a seat holds, which outlives it. */
typedef struct calls {
    PyObject_HEAD
    judge *judge;
    accepted_payload *payload;
    fow_validator *validator;
    fow_report *report;
    Py_ssize_t held; /* the longest token for which the interpreter's lock is kept */
} calls;

static int init(PyObject *self, PyObject *words, PyObject *named)
{
    calls *it = (calls *)self;
    unsigned long long at[4];
    if (named != NULL) {
        PyErr_SetString(PyExc_TypeError, "Calls takes no names");
        return -1;
    }
    if (!PyArg_ParseTuple(words, "KKKKn", &at[0], &at[1], &at[2], &at[3], &it->held))
        return -1;
    it->judge = (judge *)(uintptr_t)at[0];
    it->payload = (accepted_payload *)(uintptr_t)at[1];
    it->validator = (fow_validator *)(uintptr_t)at[2];
    it->report = (fow_report *)(uintptr_t)at[3];
    return 0;
}

static uint32_t validate_into(calls *it, const uint8_t *token, size_t len, int64_t now, uint8_t *out, size_t *written)
{
    uint32_t verdict = it->judge(it->validator, token, len, now, it->report);
    return verdict != FOW_OK ? verdict : it->payload(it->validator, out, len + 1, written);
}

/* The payload; None where the token isn't accepted, and the report says why; MemoryError where memory was refused. */
static PyObject *result_of(uint32_t status, uint32_t verdict, const uint8_t *out, size_t written)
{
    if (status == FOW_OK)
        return PyUnicode_DecodeUTF8((const char *)out, (Py_ssize_t)written, NULL);
    /* (an accepted token has a payload: where there is none, nothing is known) */
    if (verdict != FOW_REFUSED)
        return PyErr_NoMemory();
    Py_INCREF(Py_None);
    return Py_None;
}

/* A payload has fewer octets than its token, and what is longer than most gets its own room. */
static PyObject *validate(PyObject *self, PyObject *words)
{
    calls *it = (calls *)self;
    const char *token;
    Py_ssize_t len;
    long long now;
    uint8_t near[2048], *out = near;
    size_t written = 0;
    uint32_t status;
    if (!PyArg_ParseTuple(words, "y#L", &token, &len, &now))
        return NULL;
    if (it->judge == NULL) {
        PyErr_SetString(PyExc_TypeError, "Calls that were never made");
        return NULL;
    }
    if ((size_t)len >= sizeof near && (out = malloc((size_t)len + 1)) == NULL)
        return PyErr_NoMemory();
    if (len <= it->held) {
        status = validate_into(it, (const uint8_t *)token, (size_t)len, now, out, &written);
    } else {
        Py_BEGIN_ALLOW_THREADS
        status = validate_into(it, (const uint8_t *)token, (size_t)len, now, out, &written);
        Py_END_ALLOW_THREADS
    }
    PyObject *result = result_of(status, it->report->verdict, out, written);
    if (out != near)
        free(out);
    return result;
}

static void dealloc(PyObject *self)
{
    PyTypeObject *type = Py_TYPE(self);
    freefunc release = (freefunc)PyType_GetSlot(type, Py_tp_free);
    release(self);
    Py_DECREF(type);
}

static PyMethodDef methods[] = {
    { "validate", validate, METH_VARARGS, "The payload of a token that is accepted at a moment, and None where it isn't." },
    { NULL, NULL, 0, NULL },
};

static PyType_Slot slots[] = {
    { Py_tp_init, init },
    { Py_tp_dealloc, dealloc },
    { Py_tp_methods, methods },
    { 0, NULL },
};

static PyType_Spec spec = { "fowharimu._calls.Calls", sizeof(calls), 0, Py_TPFLAGS_DEFAULT, slots };

static struct PyModuleDef module = { PyModuleDef_HEAD_INIT, "_calls", NULL, -1, NULL, NULL, NULL, NULL, NULL };

PyMODINIT_FUNC PyInit__calls(void)
{
    PyObject *made = PyModule_Create(&module);
    PyObject *type = PyType_FromSpec(&spec);
    if (made == NULL || type == NULL || PyModule_AddObject(made, "Calls", type) != 0) {
        Py_XDECREF(type);
        Py_XDECREF(made);
        return NULL;
    }
    return made;
}
