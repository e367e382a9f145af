/* Arrays as bytes and in files, of all types. */
#include "native.h"

#define SAVED(kind, member)                                                                                                         \
    static uint32_t kind##_dump(const Handle *handle, uint32_t format, const char *name, size_t length, uint8_t *bytes, size_t room, \
                                size_t *size)                                                                                       \
    {                                                                                                                               \
        return sellumaq_##kind##_dump(&handle->member, format, (const uint8_t *)name, length, bytes, room, size);                   \
    }                                                                                                                               \
    static uint32_t kind##_load(Handle *handle, const uint8_t *bytes, size_t count, uint32_t *fault)                                \
    {                                                                                                                               \
        return sellumaq_##kind##_load(&handle->member, bytes, count, fault);                                                        \
    }                                                                                                                               \
    static uint32_t kind##_save(const Handle *handle, const char *path) { return sellumaq_##kind##_save(&handle->member, path); }    \
    static uint32_t kind##_open(Handle *handle, const char *path, uint32_t *fault)                                                  \
    {                                                                                                                               \
        return sellumaq_##kind##_open(&handle->member, path, fault);                                                                \
    }                                                                                                                               \
    const SavedCalls kind##_saved = {kind##_dump, kind##_load, kind##_save, kind##_open};

SAVED(judy1, set)
SAVED(judyl, map)
SAVED(judysl, strings)
SAVED(judyhs, hashed)

/* Sets the error of a call that wasn't done; of the system's, errno is as the call left it. */
static void raise_refused(uint32_t told, uint32_t fault, PyObject *path)
{
    switch (told) {
    case SELLUMAQ_NO_MEMORY:
        PyErr_NoMemory();
        break;
    case SELLUMAQ_SYSTEM:
        PyErr_SetFromErrnoWithFilenameObject(PyExc_OSError, path);
        break;
    case SELLUMAQ_BAD_DUMP:
        PyErr_SetString(PyExc_ValueError, sellumaq_fault_text(fault));
        break;
    case SELLUMAQ_TOO_MANY:
        PyErr_SetString(PyExc_OverflowError, "more keys than a dump can say, 4,294,967,295");
        break;
    case SELLUMAQ_BAD_NAME:
        PyErr_SetString(PyExc_ValueError, "the name isn't 1 to 32 ASCII letters, digits, `_` and `-`");
        break;
    case SELLUMAQ_BAD_FORMAT:
        PyErr_SetString(PyExc_ValueError, "the format is neither 1 nor 2");
        break;
    default:
        PyErr_SetString(PyExc_ValueError, "a key of more bytes than a dump can say, 1,024");
    }
}

PyObject *dump_array(const Handle *handle, const SavedCalls *calls, PyObject *arguments, PyObject *keywords)
{
    static char *const names[] = {"name", "format", NULL};
    const char *name = "array";
    Py_ssize_t length = 5;
    int format = 2;
    if (!PyArg_ParseTupleAndKeywords(arguments, keywords, "|$s#i:tobytes", (char **)names, &name, &length, &format))
        return NULL;
    uint8_t none;
    size_t size = 0;
    PyObject *bytes = NULL;
    uint32_t told = calls->dump(handle, (uint32_t)format, name, (size_t)length, &none, 0, &size);
    if (told == SELLUMAQ_TOO_SMALL) {
        bytes = size > PY_SSIZE_T_MAX ? PyErr_NoMemory() : PyBytes_FromStringAndSize(NULL, (Py_ssize_t)size);
        if (!bytes)
            return NULL;
        told = calls->dump(handle, (uint32_t)format, name, (size_t)length, (uint8_t *)PyBytes_AsString(bytes), size, &size);
    }
    if (told != SELLUMAQ_DONE) {
        raise_refused(told, 0, NULL);
        Py_CLEAR(bytes);
    }
    return bytes;
}

bool load_array(const SavedCalls *calls, PyObject *lent, Handle *made)
{
    static const uint8_t none;
    Py_buffer view;
    uint32_t fault = 0;
    if (PyObject_GetBuffer(lent, &view, PyBUF_SIMPLE) < 0)
        return false;
    *made = (Handle){.set = {NULL}};
    uint32_t told = calls->load(made, view.buf ? view.buf : &none, (size_t)view.len, &fault);
    PyBuffer_Release(&view);
    if (told != SELLUMAQ_DONE)
        raise_refused(told, fault, NULL);
    return told == SELLUMAQ_DONE;
}

/* A path, as errors tell it, and its bytes; false with an error set. Each is a new reference. */
static bool read_path(PyObject *object, PyObject **path, PyObject **bytes)
{
    *path = PyOS_FSPath(object);
    if (*path && PyUnicode_FSConverter(*path, bytes))
        return true;
    Py_CLEAR(*path);
    return false;
}

PyObject *save_array(const Handle *handle, const SavedCalls *calls, PyObject *object)
{
    PyObject *path, *bytes;
    if (!read_path(object, &path, &bytes))
        return NULL;
    uint32_t told = calls->save(handle, PyBytes_AsString(bytes));
    if (told != SELLUMAQ_DONE)
        raise_refused(told, 0, path);
    Py_DECREF(path);
    Py_DECREF(bytes);
    return told == SELLUMAQ_DONE ? Py_NewRef(Py_None) : NULL;
}

bool open_array(const SavedCalls *calls, PyObject *object, Handle *made)
{
    PyObject *path, *bytes;
    uint32_t fault = 0;
    if (!read_path(object, &path, &bytes))
        return false;
    *made = (Handle){.set = {NULL}};
    uint32_t told = calls->open(made, PyBytes_AsString(bytes), &fault);
    if (told != SELLUMAQ_DONE)
        raise_refused(told, fault, path);
    Py_DECREF(path);
    Py_DECREF(bytes);
    return told == SELLUMAQ_DONE;
}
