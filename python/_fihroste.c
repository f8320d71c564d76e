/* The module fihroste._fihroste: the functions of fihroste.h for the package's Python code. It keeps to the limited API
   of Python 3.8, so one wheel serves that and all later ones. No proof covers it.

   Each function answers (status, label, offset, line, value). A text is a str, or bytes in UTF-8. Settings that were read are
   a capsule, which gives them back when it is collected. A handle to them is for one call at a time: a short call keeps the
   interpreter's lock, and so has the capsule's for itself, and a long one gives the lock up and shares it first. */
#define Py_LIMITED_API 0x03080000
#define PY_SSIZE_T_CLEAN
#include <Python.h>
#include <stdlib.h>
#include "fihroste.h"

/* For texts of fewer bytes the interpreter's lock is kept: to give it up would cost more than the call. */
#define SHORT 4096
/* The longest text that is taken, in bytes, as it is the program's. */
#define LONGEST (1 << 30)
/* Room for the names of most sections. */
#define NAME_ROOM 64
/* The name of capsules. */
#define KEPT "fihroste.kept"

typedef struct call {
    fihroste_answer (*run)(const struct call *, size_t room);
    const char *text;
    Py_ssize_t text_size;
    fihroste_kept *kept;
    unsigned int number; /* the profile; of a listing, by what imports count as one */
    int top_only;
    fihroste_answer answer;
    uint8_t *out;
} call;

#define TEXT(c) (const uint8_t *)(c)->text, (size_t)(c)->text_size

static fihroste_answer run_sort(const call *c, size_t room) {
    return fihroste_sort_kept(TEXT(c), c->kept, c->out, room);
}

static fihroste_answer run_check(const call *c, size_t room) {
    (void)room;
    return fihroste_check_kept(TEXT(c), c->kept);
}

static fihroste_answer run_find(const call *c, size_t room) {
    return fihroste_find(TEXT(c), c->number, c->top_only != 0, c->out, room);
}

static fihroste_answer run_place(const call *c, size_t room) {
    return fihroste_place_kept(TEXT(c), c->kept, c->out, room);
}

/* Reads settings, and answers the names of their unknown keys, or why they are refused. */
static fihroste_answer run_read(const call *c, size_t room) {
    fihroste_answer answer = {.status = FIHROSTE_SAME};
    if (!c->kept->full) answer = fihroste_settings_read(TEXT(c), c->number, c->kept);
    if (answer.status == FIHROSTE_SAME) return fihroste_settings_unknown(c->kept, c->out, room);
    if (answer.status == FIHROSTE_SETTINGS) return fihroste_settings(TEXT(c), c->number, c->out, room);
    return answer;
}

/* Runs the call with a buffer of its own, and once more where that was too small. */
static void fill(call *c, size_t room) {
    c->answer.size = room;
    do {
        room = c->answer.size;
        free(c->out);
        c->out = malloc(room);
        c->answer.status = FIHROSTE_MEMORY;
        if (c->out) c->answer = c->run(c, room);
    } while (c->out && c->answer.size > room);
}

/* Runs the call without the interpreter's lock, with a handle of its own if it has settings. */
static void fill_unlocked(call *c, size_t room) {
    fihroste_kept own = {0};
    if (c->kept && c->kept->full) {
        c->answer = fihroste_settings_share(c->kept, &own);
        if (c->answer.status != FIHROSTE_SAME) return;
        c->kept = &own;
    }
    Py_BEGIN_ALLOW_THREADS
    fill(c, room);
    Py_END_ALLOW_THREADS
    fihroste_settings_free(&own);
}

/* Runs the call. Answers 0, and sets an exception, if the text is too long or memory ran out. */
static int make(call *c, size_t room) {
    if (c->text_size > LONGEST) {
        PyErr_SetString(PyExc_OverflowError, "the text is too long");
        return 0;
    }
    if (c->text_size < SHORT) {
        fill(c, room);
    } else {
        fill_unlocked(c, room);
    }
    if (c->answer.status != FIHROSTE_MEMORY) return 1;
    free(c->out);
    PyErr_NoMemory();
    return 0;
}

/* The answer with this value, which is given away, or NULL after an exception. */
static PyObject *answer(call *c, PyObject *value) {
    free(c->out);
    if (!value) return NULL;
    return Py_BuildValue("(IIKKN)", c->answer.status, c->answer.label, (unsigned long long)c->answer.offset,
                         (unsigned long long)c->answer.line, value);
}

static PyObject *none(void) { return Py_BuildValue(""); }

/* The result as one text. */
static PyObject *whole(const call *c) {
    return PyUnicode_FromStringAndSize((const char *)c->out, (Py_ssize_t)c->answer.size);
}

static uint64_t read_number(const uint8_t **at) {
    uint64_t number = 0;
    for (int i = 0; i < 8; i++) number |= (uint64_t)(*at)[i] << (8 * i);
    *at += 8;
    return number;
}

static PyObject *read_text(const uint8_t **at) {
    Py_ssize_t size = (Py_ssize_t)read_number(at);
    const char *text = (const char *)*at;
    *at += size;
    return PyUnicode_FromStringAndSize(text, size);
}

static PyObject *read_option(const uint8_t **at) { return *(*at)++ ? read_text(at) : none(); }

static PyObject *read_import(const uint8_t **at) {
    uint64_t line = read_number(at);
    PyObject *indented = PyBool_FromLong(*(*at)++);
    PyObject *module = read_text(at);
    PyObject *attribute = read_option(at);
    PyObject *alias = read_option(at);
    return Py_BuildValue("(KNNNN)", (unsigned long long)line, indented, module, attribute, alias);
}

/* The list of all that the result holds. */
static PyObject *list(const call *c, PyObject *(*read)(const uint8_t **)) {
    const uint8_t *at = c->out, *end = c->out + c->answer.size;
    PyObject *items = PyList_New(0);
    while (items && at < end) {
        PyObject *item = read(&at);
        if (!item || PyList_Append(items, item)) Py_CLEAR(items);
        Py_XDECREF(item);
    }
    return items;
}

/* Takes a text and settings that were read. */
static int take(call *c, PyObject *args) {
    PyObject *capsule;
    if (!PyArg_ParseTuple(args, "s#O", &c->text, &c->text_size, &capsule)) return 0;
    c->kept = PyCapsule_GetPointer(capsule, KEPT);
    return c->kept != NULL;
}

static PyObject *py_sort(PyObject *self, PyObject *args) {
    (void)self;
    call c = {.run = run_sort};
    if (!take(&c, args) || !make(&c, (size_t)c.text_size + (size_t)c.text_size / 8 + SHORT)) return NULL;
    if (c.answer.status != FIHROSTE_CHANGED) return answer(&c, none());
    return answer(&c, whole(&c));
}

static PyObject *py_check(PyObject *self, PyObject *args) {
    (void)self;
    call c = {.run = run_check};
    return take(&c, args) && make(&c, 1) ? answer(&c, none()) : NULL;
}

static PyObject *py_find(PyObject *self, PyObject *args) {
    (void)self;
    call c = {.run = run_find};
    if (!PyArg_ParseTuple(args, "s#Ip", &c.text, &c.text_size, &c.number, &c.top_only)) return NULL;
    return make(&c, (size_t)c.text_size + SHORT) ? answer(&c, list(&c, read_import)) : NULL;
}

static PyObject *py_place(PyObject *self, PyObject *args) {
    (void)self;
    call c = {.run = run_place};
    return take(&c, args) && make(&c, NAME_ROOM) ? answer(&c, whole(&c)) : NULL;
}

static void free_kept(PyObject *capsule) {
    fihroste_kept *kept = PyCapsule_GetPointer(capsule, KEPT);
    fihroste_settings_free(kept);
    free(kept);
}

/* A capsule with a handle that keeps nothing. */
static PyObject *capsule_of_none(void) {
    fihroste_kept *kept = calloc(1, sizeof *kept);
    if (!kept) return PyErr_NoMemory();
    PyObject *capsule = PyCapsule_New(kept, KEPT, free_kept);
    if (!capsule) free(kept);
    return capsule;
}

static PyObject *py_read(PyObject *self, PyObject *args) {
    (void)self;
    call c = {.run = run_read};
    if (!PyArg_ParseTuple(args, "y#I", &c.text, &c.text_size, &c.number)) return NULL;
    PyObject *value = NULL, *capsule = capsule_of_none();
    if (!capsule) return NULL;
    c.kept = PyCapsule_GetPointer(capsule, KEPT);
    if (!make(&c, SHORT)) {
        Py_DECREF(capsule);
        return NULL;
    }
    if (c.answer.status != FIHROSTE_SAME) {
        value = whole(&c);
    } else {
        PyObject *names = list(&c, read_text);
        if (names) value = Py_BuildValue("(ON)", capsule, names);
    }
    Py_DECREF(capsule);
    return answer(&c, value);
}

static PyMethodDef methods[] = {
    {"sort", py_sort, METH_VARARGS, "sort(text, kept): the sorted text, where it differs"},
    {"check", py_check, METH_VARARGS, "check(text, kept): no value"},
    {"find", py_find, METH_VARARGS, "find(text, unique, top_only): the list of imports"},
    {"place", py_place, METH_VARARGS, "place(module, kept): the name of the section"},
    {"read", py_read, METH_VARARGS, "read(settings, profile): what is kept and the unknown keys, or the key that is refused"},
    {NULL, NULL, 0, NULL}};

static PyModuleDef_Slot slots[] = {{0, NULL}};
static struct PyModuleDef definition = {PyModuleDef_HEAD_INIT, "_fihroste", NULL, 0, methods, slots, NULL, NULL, NULL};

PyMODINIT_FUNC PyInit__fihroste(void) { return PyModuleDef_Init(&definition); }
