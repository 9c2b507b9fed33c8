/* The bridge from Python to libosbytes: each call of the package crosses here, once, by the header's declaration.
 *
 * CALLS, at the end, lists the functions of this module by their shapes. A shape reads the arguments, makes the call that
 * it is given, and makes a result or an exception of what the call returns. It runs under the lock of the interpreter,
 * which it gives up for what is long. No object of Python is kept by the module, so it can be loaded several times.
 *
 * It is written for the stable ABI of Python 3.10. A Python before it, and one without the lock, compile their own. */
#define PY_SSIZE_T_CLEAN
#include <patchlevel.h>
#include <pyconfig.h>
#if PY_VERSION_HEX >= 0x030A0000 && !defined(Py_GIL_DISABLED)
#define Py_LIMITED_API 0x030A0000
#endif
#include <Python.h>

#include "osbytes.h"

enum { ROOM = 4096, LONG = 1 << 16, FEW = 64, BATCH = 256, NOWHERE = -1 };

/* Runs a statement, without the lock of the interpreter if it takes long. */
#define UNLOCKED(is_long, statement) \
    do { \
        PyThreadState *thread = (is_long) ? PyEval_SaveThread() : NULL; \
        statement; \
        if (thread != NULL) PyEval_RestoreThread(thread); \
    } while (0)

/* How Python makes a str of a string of each platform. */
static const char *const ERRORS[] = {"surrogateescape", "surrogatepass", "surrogateescape"};

/* A string that was given: its bytes, which an object keeps. */
typedef struct {
    PyObject *kept;
    const char *at;
    size_t len;
    int is_text;
    osb_platform platform;
} string;

typedef PyObject *const *arguments;

/* An attribute, by a name of which there is one object: Python keeps names that it has looked up. */
static PyObject *attribute_of(PyObject *object, const char *name) {
    PyObject *interned = object == NULL ? NULL : PyUnicode_InternFromString(name);
    PyObject *found = interned == NULL ? NULL : PyObject_GetAttr(object, interned);
    Py_XDECREF(interned);
    return found;
}

/* Calls a function in Python, for what is rare: an error, and a str that isn't UTF-8. */
static PyObject *ask(const char *name, const char *types, ...) {
    va_list values;
    PyObject *function = attribute_of(PyImport_AddModule("osbytes._strings"), name); /* which has been imported */
    va_start(values, types);
    PyObject *given = function == NULL ? NULL : Py_VaBuildValue(types, values);
    va_end(values);
    PyObject *result = given == NULL ? NULL : PyObject_CallObject(function, given);
    Py_XDECREF(function);
    Py_XDECREF(given);
    return result;
}

static PyObject *made(const char *at, size_t len, int is_text, osb_platform platform) {
    return is_text ? PyUnicode_DecodeUTF8(at, (Py_ssize_t)len, ERRORS[platform]) : PyBytes_FromStringAndSize(at, (Py_ssize_t)len);
}

/* An index in the bytes of a string as one in what was given. */
static Py_ssize_t index_in(const string *of, size_t index) {
    PyObject *before = of->is_text ? made(of->at, index, 1, of->platform) : NULL;
    Py_ssize_t found = before == NULL ? (Py_ssize_t)index : PyUnicode_GetLength(before);
    Py_XDECREF(before);
    return found;
}

/* Raises what a status means. What isn't known is NOWHERE, or 0 for a kind. */
static PyObject *refuse(osb_status status, const char *text, Py_ssize_t index, Py_ssize_t which, unsigned kind,
                        Py_ssize_t count) {
    if (status == OSB_NO_MEMORY) return PyErr_NoMemory();
    PyObject *error = ask("refusal", "(isnnin)", (int)status, text, index, which, (int)kind, count);
    if (error != NULL) PyErr_SetObject((PyObject *)Py_TYPE(error), error);
    Py_XDECREF(error);
    return NULL;
}

static PyObject *refuse_plainly(osb_status status) {
    return refuse(status, osb_status_text(status), NOWHERE, NOWHERE, 0, NOWHERE);
}

static PyObject *refuse_at(osb_status status, const string *of, size_t index, Py_ssize_t which, unsigned kind) {
    return refuse(status, osb_status_text(status), index_in(of, index), which, kind, NOWHERE);
}

/* Raises the fault of a string. The bytes that the text of one names aren't those of a str. */
static PyObject *refuse_fault(const osb_fault *fault, const string *of, Py_ssize_t which) {
    char text[OSB_FAULT_TEXT_ROOM];
    size_t count;
    osb_status status = osb_fault_text(fault, text, sizeof text, &count);
    if (status != OSB_OK) return refuse_plainly(status);
    if (of == NULL) return refuse(OSB_FAULTY, text, NOWHERE, NOWHERE, 0, NOWHERE);
    return refuse(OSB_FAULTY, of->is_text ? NULL : text, index_in(of, fault->index), which, 0, (Py_ssize_t)fault->count);
}

static PyObject *wrong_type(const char *wanted, PyObject *given) {
    PyObject *name = attribute_of((PyObject *)Py_TYPE(given), "__name__");
    if (name != NULL) PyErr_Format(PyExc_TypeError, "expected %s, not %U", wanted, name);
    Py_XDECREF(name);
    return NULL;
}

static int read_platform(PyObject *given, osb_platform *platform) {
    long value = PyLong_Check(given) && !PyBool_Check(given) ? PyLong_AsLong(given) : -1;
    PyErr_Clear();
    *platform = (osb_platform)value;
    if (0 <= value && value <= 2) return 1;
    Py_XDECREF(ask("as_platform", "(O)", given));
    return 0;
}

static void drop(string *it) {
    Py_CLEAR(it->kept);
}

/* Takes the bytes of an object, and the reference to it. */
static int take(PyObject *kept, int is_text, osb_platform platform, string *out) {
    Py_ssize_t len = 0;
    *out = (string){.kept = kept, .is_text = is_text, .platform = platform};
    if (kept == NULL) return 0;
    if (PyUnicode_Check(kept)) out->at = PyUnicode_AsUTF8AndSize(kept, &len);
    else if (PyBytes_AsStringAndSize(kept, (char **)&out->at, &len) < 0) out->at = NULL;
    out->len = (size_t)len;
    return out->at != NULL;
}

/* Reads a str, of which the object has UTF-8 or is asked for bytes. */
static int read_text(PyObject *given, osb_platform platform, string *out) {
    Py_INCREF(given);
    if (take(given, 1, platform, out)) return 1;
    drop(out);
    if (PyErr_ExceptionMatches(PyExc_UnicodeEncodeError)) PyErr_Clear();
    return 0;
}

/* Reads a string, as it is: a str, bytes, or an object with __fspath__. */
static int read_string(PyObject *given, osb_platform platform, Py_ssize_t which, string *out) {
    *out = (string){.kept = NULL};
    if (PyUnicode_Check(given)) {
        if (read_text(given, platform, out)) return 1;
        return !PyErr_Occurred() && take(ask("bytes_of", "(Oin)", given, (int)platform, which), 1, platform, out);
    }
    if (PyBytes_Check(given)) {
        Py_INCREF(given);
        return take(given, 0, platform, out);
    }
    PyObject *path = PyOS_FSPath(given);
    int is_read = path != NULL && read_string(path, platform, which, out);
    Py_XDECREF(path);
    return is_read;
}

/* Reads a string of the platform. Any bytes are one of Unix, and a str that is UTF-8 is one of each. */
static int read_valid(PyObject *given, osb_platform platform, Py_ssize_t which, string *out) {
    osb_fault fault;
    if (!read_string(given, platform, which, out)) return 0;
    if (platform == OSB_UNIX || PyUnicode_Check(out->kept) || (out->is_text && platform == OSB_WINDOWS)) return 1;
    osb_status status = osb_check(platform, out->at, out->len, &fault);
    if (status == OSB_FAULTY) refuse_fault(&fault, out, which);
    else if (status != OSB_OK) refuse_plainly(status);
    if (status != OSB_OK) drop(out);
    return status == OSB_OK;
}

static int read_bytes(PyObject *given, string *out) {
    *out = (string){.kept = NULL};
    if (PyBytes_Check(given)) return read_string(given, OSB_UNIX, NOWHERE, out);
    wrong_type("bytes", given);
    return 0;
}

/* Reads what is searched for, or an escape, which have to be UTF-8: a str with surrogates is given to the call as it is. */
static int read_pattern(PyObject *given, string *out) {
    *out = (string){.kept = NULL};
    if (PyBytes_Check(given)) return read_string(given, OSB_UNIX, NOWHERE, out);
    if (!PyUnicode_Check(given)) {
        wrong_type("str or bytes", given);
        return 0;
    }
    if (read_text(given, OSB_WINDOWS, out)) return 1;
    return !PyErr_Occurred() && take(PyUnicode_AsEncodedString(given, "utf-8", "surrogatepass"), 1, OSB_WINDOWS, out);
}

/* Raises what is wrong with a pattern, or with an escape, where it is no UTF-8. */
static PyObject *refuse_pattern(osb_status status, const string *pattern, osb_status as) {
    osb_fault fault;
    Py_ssize_t index = NOWHERE;
    if (status != OSB_BAD_PATTERN) return refuse_plainly(status);
    if (osb_check(OSB_WASM, pattern->at, pattern->len, &fault) == OSB_FAULTY) index = index_in(pattern, fault.index);
    return refuse(as, osb_status_text(status), index, NOWHERE, 0, NOWHERE);
}

/* A call: what was read for it, what it writes into, a buffer on the stack or a longer one, and what it returned. */
typedef struct {
    string a, b;
    osb_platform platform;
    osb_status status;
    osb_fault fault;
    size_t index, room, count;
    char *at, *longer;
    _Alignas(16) char few[ROOM];
} frame;

static void begin(frame *it) {
    it->a.kept = it->b.kept = NULL;
    it->fault.kind = (osb_fault_kind)0;
    it->index = 0;
    it->longer = NULL;
}

/* Frees what a call was made with, and returns its result. */
static PyObject *ended(frame *it, PyObject *result) {
    PyMem_Free(it->longer);
    drop(&it->a);
    drop(&it->b);
    return result;
}

/* Reads a string and a platform, or two strings and a platform. */
static int read_one(frame *it, arguments args) {
    begin(it);
    return read_platform(args[1], &it->platform) && read_valid(args[0], it->platform, NOWHERE, &it->a);
}

static int read_two(frame *it, arguments args) {
    begin(it);
    if (!read_platform(args[2], &it->platform) || !read_valid(args[0], it->platform, NOWHERE, &it->a)) return 0;
    if (read_valid(args[1], it->platform, NOWHERE, &it->b)) {
        if (it->a.is_text == it->b.is_text) return 1;
        PyErr_SetString(PyExc_TypeError, "can't mix str and bytes");
    }
    ended(it, NULL);
    return 0;
}

/* Reads bytes, and what is searched for in them. */
static int read_searched(frame *it, arguments args) {
    begin(it);
    if (read_bytes(args[0], &it->a) && read_pattern(args[1], &it->b)) return 1;
    ended(it, NULL);
    return 0;
}

static osb_status make_room(frame *it, size_t need) {
    PyMem_Free(it->longer);
    it->longer = need <= ROOM ? NULL : PyMem_Malloc(need);
    it->at = need <= ROOM ? it->few : it->longer;
    it->room = need <= ROOM ? ROOM : need;
    return it->at == NULL ? OSB_NO_MEMORY : OSB_OK;
}

/* Makes a call that writes at most `need` bytes, in items of a width, and again if more room is needed after all. */
#define WRITE(it, need, width, call) \
    do { \
        (it).status = make_room(&(it), need); \
        while ((it).status == OSB_OK) { \
            UNLOCKED((it).room > LONG, (it).status = call); \
            if ((it).status != OSB_NO_ROOM) break; \
            (it).status = make_room(&(it), (it).count * (width)); \
        } \
    } while (0)

/* Raises what a status other than OSB_OK means. That there is no such part is None. */
static PyObject *refused(const frame *it) {
    if (it->status == OSB_NONE) Py_RETURN_NONE;
    if (it->status == OSB_FAULTY && it->fault.kind != 0) return refuse_fault(&it->fault, &it->a, NOWHERE);
    if (it->status == OSB_FAULTY) return refuse(it->status, NULL, index_in(&it->a, it->index), NOWHERE, 0, NOWHERE);
    if (it->status == OSB_HAS_NUL || it->status == OSB_BAD_ESCAPE) return refuse_at(it->status, &it->a, it->index, NOWHERE, 0);
    return refuse_plainly(it->status);
}

static PyObject *written(frame *it, int is_text, osb_platform platform) {
    return ended(it, it->status == OSB_OK ? made(it->at, it->count, is_text, platform) : refused(it));
}

/* A text of a string: (string, platform). */
typedef osb_status text_call(osb_platform, const char *, size_t, char *, size_t, size_t *, osb_fault *);
static PyObject *text(arguments args, text_call *call, size_t longest) {
    frame it;
    begin(&it);
    if (!read_platform(args[1], &it.platform) || !read_string(args[0], it.platform, NOWHERE, &it.a)) return NULL;
    WRITE(it, longest * it.a.len, 1, call(it.platform, it.a.at, it.a.len, it.at, it.room, &it.count, &it.fault));
    return written(&it, 1, it.platform);
}

/* The string of an escape: (text, platform). */
typedef osb_status escape_call(osb_platform, const char *, size_t, char *, size_t, size_t *, size_t *);
static PyObject *unescaped(arguments args, escape_call *call) {
    frame it;
    begin(&it);
    if (!PyUnicode_Check(args[0])) return wrong_type("str", args[0]);
    if (!read_platform(args[1], &it.platform) || !read_pattern(args[0], &it.a)) return NULL;
    WRITE(it, it.a.len, 1, call(it.platform, it.a.at, it.a.len, it.at, it.room, &it.count, &it.index));
    if (it.status == OSB_BAD_PATTERN) return ended(&it, refuse_pattern(it.status, &it.a, OSB_BAD_ESCAPE));
    return written(&it, 0, it.platform);
}

/* A word of a name of a platform: (name). */
typedef osb_status word_call(const char *, size_t, char *, size_t, size_t *, size_t *);
static PyObject *word(arguments args, word_call *call, osb_platform platform) {
    frame it;
    begin(&it);
    if (!read_string(args[0], platform, NOWHERE, &it.a)) return NULL;
    WRITE(it, 4 * it.a.len + 3, 1, call(it.a.at, it.a.len, it.at, it.room, &it.count, &it.index));
    return written(&it, it.a.is_text || platform != OSB_UNIX, platform);
}

/* A path that is built of one: (path, platform). */
typedef osb_status one_call(osb_platform, const char *, size_t, char *, size_t, size_t *);
static PyObject *of_one(arguments args, one_call *call) {
    frame it;
    if (!read_one(&it, args)) return NULL;
    WRITE(it, it.a.len + 4, 1, call(it.platform, it.a.at, it.a.len, it.at, it.room, &it.count));
    return written(&it, it.a.is_text, it.platform);
}

/* One that is built of two: (path, path, platform). */
typedef osb_status two_call(osb_platform, const char *, size_t, const char *, size_t, char *, size_t, size_t *);
static PyObject *of_two(arguments args, two_call *call) {
    frame it;
    if (!read_two(&it, args)) return NULL;
    WRITE(it, it.a.len + it.b.len + 4, 1, call(it.platform, it.a.at, it.a.len, it.b.at, it.b.len, it.at, it.room, &it.count));
    return written(&it, it.a.is_text, it.platform);
}

/* A path below a base: (base, path, platform). */
static PyObject *below(arguments args) {
    frame it;
    osb_join_fault fault;
    if (!read_two(&it, args)) return NULL;
    WRITE(it, it.a.len + it.b.len + 4, 1,
          osb_path_join_checked(it.platform, it.a.at, it.a.len, it.b.at, it.b.len, it.at, it.room, &it.count, &fault));
    if (it.status != OSB_BAD_PATH) return written(&it, it.a.is_text, it.platform);
    /* the index of a NUL, or the number of a component */
    const string number = {.is_text = 0};
    const string *of = fault.reason == OSB_JOIN_NUL ? &it.b : fault.reason == OSB_JOIN_BASE_NUL ? &it.a : &number;
    return ended(&it, refuse_at(it.status, of, fault.index, NOWHERE, fault.reason));
}

/* A path of another platform: (path, platform, to). */
static PyObject *converted(arguments args) {
    frame it;
    osb_platform to;
    if (!read_platform(args[2], &to) || !read_one(&it, args)) return NULL;
    WRITE(it, it.a.len + 4, 1,
          osb_path_convert(it.platform, to, it.a.at, it.a.len, it.at, it.room, &it.count, &it.index, &it.fault));
    if (it.status != OSB_BAD_PATH) return written(&it, it.a.is_text, to);
    return ended(&it, refuse(it.status, osb_status_text(it.status), (Py_ssize_t)it.index, NOWHERE, 0, NOWHERE));
}

static PyObject *of_view(frame *it, osb_view view) {
    return ended(it, it->status == OSB_OK ? made(view.at, view.len, it->a.is_text, it->platform) : refused(it));
}

/* A part of a path: (path, platform). */
typedef osb_status part_call(osb_platform, const char *, size_t, osb_view *);
static PyObject *part(arguments args, part_call *call) {
    frame it;
    osb_view view = {NULL, 0};
    if (!read_one(&it, args)) return NULL;
    it.status = call(it.platform, it.a.at, it.a.len, &view);
    return of_view(&it, view);
}

/* What follows a base: (path, base, platform). */
static PyObject *rest(arguments args) {
    frame it;
    osb_view view = {NULL, 0};
    if (!read_two(&it, args)) return NULL;
    it.status = osb_path_strip_prefix(it.platform, it.a.at, it.a.len, it.b.at, it.b.len, &view);
    return of_view(&it, view);
}

static PyObject *of_test(int answer) {
    return answer < 0 ? refuse_plainly((osb_status)-answer) : PyBool_FromLong(answer);
}

/* A test of a path: (path, platform). */
typedef int holds_call(osb_platform, const char *, size_t);
static PyObject *holds(arguments args, holds_call *call) {
    frame it;
    return read_one(&it, args) ? ended(&it, of_test(call(it.platform, it.a.at, it.a.len))) : NULL;
}

/* A comparison of two strings: (string, string, platform). */
typedef int compared_call(osb_platform, const char *, size_t, const char *, size_t);
static PyObject *compared(arguments args, compared_call *call) {
    frame it;
    if (!read_two(&it, args)) return NULL;
    return ended(&it, of_test(call(it.platform, it.a.at, it.a.len, it.b.at, it.b.len)));
}

/* Whether bytes are a string of the platform, or None and else an exception: (bytes, platform). */
static PyObject *checked(arguments args, int is_test) {
    frame it;
    begin(&it);
    if (!read_platform(args[1], &it.platform) || !read_bytes(args[0], &it.a)) return NULL;
    it.status = osb_check(it.platform, it.a.at, it.a.len, &it.fault);
    if (is_test && (it.status == OSB_OK || it.status == OSB_FAULTY)) return ended(&it, PyBool_FromLong(it.status == OSB_OK));
    return ended(&it, it.status == OSB_OK ? Py_BuildValue("") : refused(&it));
}

/* The bytes of a string, or the str that Python makes of it: (string, platform). */
static PyObject *coded(arguments args, int is_text) {
    frame it;
    if (!read_one(&it, args)) return NULL;
    if (is_text ? PyUnicode_Check(it.a.kept) : PyBytes_Check(it.a.kept)) return it.a.kept;
    return ended(&it, made(it.a.at, it.a.len, is_text, it.platform));
}

/* Where a text is in bytes, or -1: (bytes, text). */
typedef osb_status place_call(const char *, size_t, const char *, size_t, size_t *);
static PyObject *place(arguments args, place_call *call) {
    frame it;
    if (!read_searched(&it, args)) return NULL;
    it.status = call(it.a.at, it.a.len, it.b.at, it.b.len, &it.index);
    if (it.status == OSB_NONE) return ended(&it, PyLong_FromLong(-1));
    return ended(&it, it.status == OSB_OK ? PyLong_FromSize_t(it.index) : refuse_pattern(it.status, &it.b, it.status));
}

static PyObject *contained(arguments args) {
    frame it;
    if (!read_searched(&it, args)) return NULL;
    int answer = osb_contains(it.a.at, it.a.len, it.b.at, it.b.len);
    it.status = (osb_status)(answer < 0 ? -answer : OSB_OK);
    return ended(&it, it.status == OSB_OK ? PyBool_FromLong(answer) : refuse_pattern(it.status, &it.b, it.status));
}

static PyObject *ordered(arguments args) {
    frame it;
    int32_t order = 0;
    begin(&it);
    if (!read_bytes(args[0], &it.a) || !read_bytes(args[1], &it.b)) return ended(&it, NULL);
    it.status = osb_compare(it.a.at, it.a.len, it.b.at, it.b.len, &order);
    return ended(&it, it.status == OSB_OK ? PyLong_FromLong(order) : refused(&it));
}

/* Whether bytes may be cut at an index: (bytes, index). */
static PyObject *boundary(arguments args) {
    frame it;
    begin(&it);
    if (!read_bytes(args[0], &it.a)) return NULL;
    if (!PyLong_Check(args[1])) return ended(&it, wrong_type("int", args[1]));
    it.index = PyLong_AsSize_t(args[1]);
    PyErr_Clear();
    return ended(&it, of_test(it.index <= it.a.len ? osb_is_boundary(it.a.at, it.a.len, it.index) : 0));
}

/* Puts a new item into a list, which is gone if there is none. */
static void put(PyObject **list, size_t at, PyObject *item) {
    if (item == NULL) Py_CLEAR(*list);
    else PyList_SetItem(*list, (Py_ssize_t)at, item);
}

static int append(PyObject *list, PyObject *item) {
    int is_done = item != NULL && PyList_Append(list, item) == 0;
    Py_XDECREF(item);
    return is_done;
}

/* The pieces between the occurrences of a text, of which at most some are taken unless their number is negative, in
 * the order in which they are found: (bytes, text, number). */
typedef osb_status split_call(osb_split *, const char *, size_t, const char *, size_t);
typedef osb_status fill_call(osb_split *, osb_view *, size_t, size_t *);
static PyObject *pieces(arguments args, split_call *start, fill_call *fill, int is_from_end) {
    frame it;
    osb_split split;
    osb_view views[BATCH];
    int overflow = 0;
    if (!read_searched(&it, args)) return NULL;
    if (!PyLong_Check(args[2])) return ended(&it, wrong_type("int", args[2]));
    long long left = PyLong_AsLongLongAndOverflow(args[2], &overflow);
    int is_limited = overflow == 0 && left >= 0, is_last = 0;
    it.status = start(&split, it.a.at, it.a.len, it.b.at, it.b.len);
    if (it.status != OSB_OK) return ended(&it, refuse_pattern(it.status, &it.b, it.status));
    PyObject *list = PyList_New(0);
    int is_right = list != NULL;
    size_t room = is_limited && left < BATCH ? (size_t)left + 1 : BATCH;
    while (is_right && !is_last && (it.status = fill(&split, views, room, &it.count)) == OSB_OK)
        for (size_t i = 0; is_right && !is_last && i < it.count; i++) {
            osb_view piece = views[i];
            is_last = is_limited && left-- == 0;
            if (is_last && is_from_end) piece = (osb_view){it.a.at, (size_t)(piece.at - it.a.at) + piece.len};
            else if (is_last) piece.len = it.a.len - (size_t)(piece.at - it.a.at);
            is_right = append(list, PyBytes_FromStringAndSize(piece.at, (Py_ssize_t)piece.len));
        }
    if (is_right && !is_last && it.status != OSB_ENDED) is_right = refused(&it) != NULL;
    if (is_right && is_from_end) is_right = PyList_Reverse(list) == 0;
    if (!is_right) Py_CLEAR(list);
    return ended(&it, list);
}

/* What is kept between calls, in a capsule of this name, and the object whose bytes it reads. */
static const char GLOBS[] = "osbytes.globs", IGNORES[] = "osbytes.ignores", CHECKER[] = "osbytes.checker";
static const char CHUNKS[] = "osbytes.chunks", SYMBOLS[] = "osbytes.symbols", OPTIONS[] = "osbytes.options";
typedef struct {
    PyObject *kept;
    int is_text;
    osb_platform platform;
    union {
        osb_globs *globs;
        osb_ignores *ignores;
        osb_checker checker;
        osb_chunks chunks;
        osb_symbols symbols;
        osb_options options;
    };
} state;

static void forget(PyObject *capsule) {
    const char *name = PyCapsule_GetName(capsule);
    state *it = PyCapsule_GetPointer(capsule, name);
    if (name == GLOBS) osb_globs_free(it->globs);
    if (name == IGNORES) osb_ignores_free(it->ignores);
    Py_XDECREF(it->kept);
    PyMem_Free(it);
}

/* Keeps a state, which is copied, with a new reference to what it reads. Where that fails, what it has is freed. */
static PyObject *keep(const char *name, const state *given) {
    state *it = PyMem_Malloc(sizeof *it);
    PyObject *capsule = it == NULL ? PyErr_NoMemory() : PyCapsule_New(it, name, forget);
    if (capsule == NULL) {
        if (name == GLOBS) osb_globs_free(given->globs);
        if (name == IGNORES) osb_ignores_free(given->ignores);
        PyMem_Free(it);
        return NULL;
    }
    *it = *given;
    Py_XINCREF(it->kept);
    return capsule;
}

static state *state_of(PyObject *capsule, const char *name) {
    return PyCapsule_GetPointer(capsule, name);
}

/* An iterator over chunks, or over symbols: (bytes), (string, platform). */
static PyObject *chunks_of(arguments args) {
    frame it;
    state its = {.kept = NULL};
    begin(&it);
    if (!read_bytes(args[0], &it.a)) return NULL;
    it.status = osb_chunks_start(&its.chunks, it.a.at, it.a.len);
    its.kept = it.a.kept;
    return ended(&it, it.status == OSB_OK ? keep(CHUNKS, &its) : refused(&it));
}

static PyObject *symbols_of(arguments args) {
    frame it;
    state its = {.kept = NULL};
    begin(&it);
    if (!read_platform(args[1], &it.platform) || !read_string(args[0], it.platform, NOWHERE, &it.a)) return NULL;
    it.status = osb_symbols_start(&its.symbols, it.platform, it.a.at, it.a.len, &it.fault);
    its.kept = it.a.kept;
    return ended(&it, it.status == OSB_OK ? keep(SYMBOLS, &its) : refused(&it));
}

/* A list for the items that were fetched, or None after the last. */
static PyObject *fetched(osb_status status, size_t count) {
    if (status == OSB_ENDED) Py_RETURN_NONE;
    return status == OSB_OK ? PyList_New((Py_ssize_t)count) : refuse_plainly(status);
}

static PyObject *more_chunks(arguments args) {
    osb_chunk items[BATCH];
    size_t count = 0;
    state *its = state_of(args[0], CHUNKS);
    if (its == NULL) return NULL;
    osb_status status = osb_chunks_fill(&its->chunks, items, BATCH, &count);
    PyObject *list = fetched(status, count);
    for (size_t it = 0; list != NULL && it < count; it++) {
        osb_view part = items[it].part, text = items[it].text;
        put(&list, it, Py_BuildValue("y#s#", part.at, (Py_ssize_t)part.len, text.at, (Py_ssize_t)text.len));
    }
    return list;
}

/* A character is a str, and a unit a number. */
static PyObject *more_symbols(arguments args) {
    osb_symbol items[BATCH];
    size_t count = 0;
    state *its = state_of(args[0], SYMBOLS);
    if (its == NULL) return NULL;
    osb_status status = osb_symbols_fill(&its->symbols, items, BATCH, &count);
    PyObject *list = fetched(status, count);
    for (size_t it = 0; list != NULL && it < count; it++)
        put(&list, it,
            items[it].kind == OSB_CHARACTER ? PyUnicode_FromOrdinal((int)items[it].value)
                                            : PyLong_FromLong((long)items[it].value));
    return list;
}

/* A check of bytes in pieces: (), (checker, bytes), (checker). */
static PyObject *checker_new(arguments args) {
    state its = {.kept = NULL};
    osb_status status = osb_checker_start(&its.checker);
    return status == OSB_OK ? keep(CHECKER, &its) : refuse_plainly(status);
}

static PyObject *fed(osb_status status, const osb_fault *fault) {
    if (status == OSB_OK) Py_RETURN_NONE;
    return status == OSB_FAULTY ? refuse_fault(fault, NULL, NOWHERE) : refuse_plainly(status);
}

static PyObject *checker_feed(arguments args) {
    frame it;
    state *its = state_of(args[0], CHECKER);
    begin(&it);
    if (its == NULL || !read_bytes(args[1], &it.a)) return NULL;
    it.status = osb_checker_feed(&its->checker, it.a.at, it.a.len, &it.fault);
    return ended(&it, fed(it.status, &it.fault));
}

static PyObject *checker_finish(arguments args) {
    osb_fault fault;
    state *its = state_of(args[0], CHECKER);
    return its == NULL ? NULL : fed(osb_checker_finish(&its->checker, &fault), &fault);
}

/* Code units as numbers: (string). */
static PyObject *units(arguments args) {
    frame it;
    begin(&it);
    if (!read_string(args[0], OSB_WINDOWS, NOWHERE, &it.a)) return NULL;
    WRITE(it, 2 * it.a.len, 2, osb_to_wide(it.a.at, it.a.len, (uint16_t *)it.at, it.room / 2, &it.count, &it.fault));
    PyObject *list = it.status == OSB_OK ? PyList_New((Py_ssize_t)it.count) : refused(&it);
    for (size_t i = 0; list != NULL && i < it.count; i++) put(&list, i, PyLong_FromLong(((const uint16_t *)it.at)[i]));
    return ended(&it, list);
}

/* The bytes of code units. */
static PyObject *of_units(const uint16_t *at, size_t len) {
    frame it;
    begin(&it);
    WRITE(it, 3 * len, 1, osb_from_wide(at, len, it.at, it.room, &it.count));
    return written(&it, 0, OSB_WINDOWS);
}

static PyObject *from_wide(arguments args) {
    frame it;
    begin(&it);
    return read_bytes(args[0], &it.a) ? ended(&it, of_units((const uint16_t *)it.a.at, it.a.len / 2)) : NULL;
}

static PyObject *made_of_units(const uint16_t *at, size_t len, int is_text) {
    int order = -1; /* the processors of the library are little-endian */
    return is_text ? PyUnicode_DecodeUTF16((const char *)at, 2 * (Py_ssize_t)len, ERRORS[OSB_WINDOWS], &order)
                   : of_units(at, len);
}

/* A list of strings that are all str or all bytes. Its views are of the strings, which its own list keeps. */
typedef struct {
    PyObject *items;
    osb_view few[FEW], *views;
    size_t count, len;
    string first;
} list;

static void drop_list(list *it) {
    if (it->views != it->few) PyMem_Free(it->views);
    Py_CLEAR(it->items);
}

/* The string of an item. */
static string item_of(const list *of, size_t it) {
    string item = of->first;
    item.at = of->views[it].at;
    item.len = of->views[it].len;
    return item;
}

static int read_list(PyObject *given, PyObject *first, osb_platform platform, list *out) {
    PyObject *is_list = PyList_Check(given) || PyTuple_Check(given) ? Py_BuildValue("") : ask("only_list", "(O)", given);
    out->items = is_list == NULL ? NULL : PySequence_List(given);
    Py_XDECREF(is_list);
    out->views = out->few;
    if (out->items == NULL || (first != NULL && PyList_Insert(out->items, 0, first) < 0)) {
        Py_CLEAR(out->items);
        return 0;
    }
    out->count = (size_t)PyList_Size(out->items);
    out->len = 0;
    out->first = (string){.is_text = 1, .platform = platform};
    if (out->count > FEW && (out->views = PyMem_Malloc(out->count * sizeof *out->views)) == NULL) PyErr_NoMemory();
    for (size_t it = 0; out->views != NULL && it < out->count; it++) {
        string item;
        int is_right = read_valid(PyList_GetItem(out->items, (Py_ssize_t)it), platform, (Py_ssize_t)it, &item);
        if (is_right && it > 0 && item.is_text != out->first.is_text) {
            PyErr_SetString(PyExc_TypeError, "can't mix str and bytes");
            is_right = 0;
            drop(&item);
        }
        if (!is_right) {
            drop_list(out);
            return 0;
        }
        out->first.is_text = item.is_text;
        out->views[it] = (osb_view){item.at, item.len};
        out->len += item.len;
        PyList_SetItem(out->items, (Py_ssize_t)it, item.kept);
    }
    if (out->views == NULL) Py_CLEAR(out->items);
    return out->views != NULL;
}

/* Raises what a status means for an item of a list. */
static PyObject *refused_item(const frame *it, const list *of, size_t which, unsigned kind) {
    string item = which < of->count ? item_of(of, which) : of->first;
    if (it->status == OSB_FAULTY && it->fault.kind != 0) return refuse_fault(&it->fault, &item, (Py_ssize_t)which);
    if (it->status == OSB_HAS_QUOTE) return refuse_at(it->status, &item, it->index, NOWHERE, 0);
    if (it->status == OSB_HAS_NUL || kind != 0) return refuse_at(it->status, &item, it->index, (Py_ssize_t)which, kind);
    return refuse_plainly(it->status);
}

/* A line of names: (names). */
static PyObject *joined(arguments args) {
    frame it;
    list names;
    size_t which = 0;
    begin(&it);
    if (!read_list(args[0], NULL, OSB_UNIX, &names)) return NULL;
    WRITE(it, 4 * (names.len + names.count), 1,
          osb_shell_join(names.views, names.count, it.at, it.room, &it.count, &which, &it.index));
    PyObject *line =
        it.status == OSB_OK ? made(it.at, it.count, names.first.is_text, OSB_UNIX) : refused_item(&it, &names, which, 0);
    drop_list(&names);
    return ended(&it, line);
}

/* A line of Windows: (program, arguments). */
static PyObject *command_line(arguments args) {
    frame it;
    list words;
    size_t which = 0;
    begin(&it);
    if (!read_list(args[1], args[0], OSB_WINDOWS, &words)) return NULL;
    WRITE(it, 4 * words.len + 6 * words.count, 2,
          osb_windows_command_line(words.views, words.count, (uint16_t *)it.at, it.room / 2, &it.count, &which, &it.index,
                                   &it.fault));
    PyObject *line = it.status == OSB_OK ? made_of_units((const uint16_t *)it.at, it.count, words.first.is_text)
                                         : refused_item(&it, &words, which, 0);
    drop_list(&words);
    return ended(&it, line);
}

/* The words of a line of a shell, after each of which a 0 was written: (line, options). */
static PyObject *shell_words(arguments args) {
    frame it;
    osb_line_fault fault;
    begin(&it);
    if (!read_string(args[0], OSB_UNIX, NOWHERE, &it.a)) return NULL;
    uint32_t options = (uint32_t)PyLong_AsUnsignedLong(args[1]);
    WRITE(it, it.a.len + 1, 1, osb_shell_words(options, it.a.at, it.a.len, it.at, it.room, &it.count, &fault));
    if (it.status == OSB_BAD_LINE || it.status == OSB_HAS_NUL)
        return ended(&it, refuse_at(it.status, &it.a, fault.index, NOWHERE, fault.kind));
    PyObject *list = it.status == OSB_OK ? PyList_New(0) : refused(&it);
    for (size_t from = 0, to = 0; list != NULL && to < it.count; to++)
        if (it.at[to] == 0) {
            if (!append(list, made(it.at + from, to - from, it.a.is_text, OSB_UNIX))) Py_CLEAR(list);
            from = to + 1;
        }
    return ended(&it, list);
}

/* What is written in units of a string of Windows: a string, or a list of words, after each of which a 0 was written: (string).
 */
typedef osb_status wide_call(const char *, size_t, uint16_t *, size_t, size_t *, size_t *, osb_fault *);
static PyObject *wide(arguments args, wide_call *call, int is_list) {
    frame it;
    begin(&it);
    if (!read_valid(args[0], OSB_WINDOWS, NOWHERE, &it.a)) return NULL;
    WRITE(it, 4 * it.a.len + 4, 2, call(it.a.at, it.a.len, (uint16_t *)it.at, it.room / 2, &it.count, &it.index, &it.fault));
    const uint16_t *at = (const uint16_t *)it.at;
    if (it.status != OSB_OK) return ended(&it, refused(&it));
    if (!is_list) return ended(&it, made_of_units(at, it.count, it.a.is_text));
    PyObject *list = PyList_New(0);
    for (size_t from = 0, to = 0; list != NULL && to < it.count; to++)
        if (at[to] == 0) {
            if (!append(list, made_of_units(at + from, to - from, it.a.is_text))) Py_CLEAR(list);
            from = to + 1;
        }
    return ended(&it, list);
}

/* The kind and the text of each component, one after the other: (path, platform). */
static PyObject *components(arguments args) {
    frame it;
    const size_t size = sizeof(osb_component);
    if (!read_one(&it, args)) return NULL;
    WRITE(it, (it.a.len / 2 + 3) * size, size,
          osb_path_components(it.platform, it.a.at, it.a.len, (osb_component *)it.at, it.room / size, &it.count));
    PyObject *list = it.status == OSB_OK ? PyList_New(2 * (Py_ssize_t)it.count) : refused(&it);
    for (size_t i = 0; list != NULL && i < it.count; i++) {
        osb_component its = ((const osb_component *)it.at)[i];
        put(&list, 2 * i, PyLong_FromLong((long)its.kind));
        if (list != NULL) put(&list, 2 * i + 1, made(it.a.at + its.start, its.end - its.start, it.a.is_text, it.platform));
    }
    return ended(&it, list);
}

/* Whether a string has no NUL. Else it is an error. */
static int is_without_nul(const string *of, Py_ssize_t which) {
    const char *nul = of->len == 0 ? NULL : memchr(of->at, 0, of->len);
    if (nul != NULL) refuse_at(OSB_HAS_NUL, of, (size_t)(nul - of->at), which, 0);
    return nul == NULL;
}

static int are_without_nul(const list *of) {
    int are = 1;
    for (size_t it = 0; are && it < of->count; it++) {
        string item = item_of(of, it);
        are = is_without_nul(&item, (Py_ssize_t)it);
    }
    return are;
}

/* A set of patterns, and their bytes: (patterns, flags, platform). */
static PyObject *globs_new(arguments args) {
    frame it;
    list patterns;
    state its = {.kept = NULL};
    osb_glob_fault fault = {0, 0, (osb_glob_fault_kind)0};
    begin(&it);
    if (!read_platform(args[2], &its.platform) || !read_list(args[0], NULL, its.platform, &patterns)) return NULL;
    PyObject *set = NULL, *raw = NULL;
    if (are_without_nul(&patterns)) {
        uint32_t flags = (uint32_t)PyLong_AsUnsignedLong(args[1]);
        it.status = osb_globs_new(its.platform, flags, patterns.views, patterns.count, &its.globs, &fault);
        it.index = fault.index;
        set = it.status == OSB_OK ? keep(GLOBS, &its) : refused_item(&it, &patterns, fault.which, fault.kind);
    }
    if (set != NULL) raw = PyList_New((Py_ssize_t)patterns.count);
    for (size_t i = 0; raw != NULL && i < patterns.count; i++)
        put(&raw, i, made(patterns.views[i].at, patterns.views[i].len, 0, its.platform));
    drop_list(&patterns);
    PyObject *both = raw == NULL ? NULL : Py_BuildValue("(OO)", set, raw);
    Py_XDECREF(set);
    Py_XDECREF(raw);
    return both;
}

/* Whether a path matches: (set, path). */
static PyObject *globs_is_match(arguments args) {
    frame it;
    int answer;
    state *its = state_of(args[0], GLOBS);
    begin(&it);
    if (its == NULL || !read_valid(args[1], its->platform, NOWHERE, &it.a)) return NULL;
    if (!is_without_nul(&it.a, NOWHERE)) return ended(&it, NULL);
    UNLOCKED(it.a.len > LONG, answer = osb_globs_is_match(its->globs, it.a.at, it.a.len));
    return ended(&it, of_test(answer));
}

/* A bool for each path: (set, paths). */
static PyObject *globs_matches(arguments args) {
    list paths;
    osb_status status = OSB_NO_MEMORY;
    state *its = state_of(args[0], GLOBS);
    if (its == NULL || !read_list(args[1], NULL, its->platform, &paths)) return NULL;
    PyObject *list = NULL;
    bool *told = NULL;
    if (are_without_nul(&paths)) {
        if ((told = PyMem_Malloc(paths.count + 1)) != NULL)
            UNLOCKED(paths.len > LONG, status = osb_globs_matches(its->globs, paths.views, paths.count, told));
        list = status == OSB_OK ? PyList_New((Py_ssize_t)paths.count) : refuse_plainly(status);
    }
    for (size_t it = 0; list != NULL && it < paths.count; it++) put(&list, it, PyBool_FromLong(told[it]));
    PyMem_Free(told);
    drop_list(&paths);
    return list;
}

static PyObject *ignores_new(arguments args) {
    state its = {.kept = NULL};
    osb_status status = osb_ignores_new(&its.ignores);
    return status == OSB_OK ? keep(IGNORES, &its) : refuse_plainly(status);
}

/* A path without ./ before it and / after it. */
static osb_view from_top(osb_view path) {
    while (path.len > 1 && path.at[0] == '.' && path.at[1] == '/')
        for (path.at++, path.len--; path.len > 0 && path.at[0] == '/'; path.len--) path.at++;
    if (path.len == 1 && path.at[0] == '.') path.len = 0;
    else if (path.len > 0 && path.at[path.len - 1] == '/') path.len--;
    return path;
}

/* Adds the content of a file, and returns it and its directory in bytes: (files, text, directory). */
static PyObject *ignores_add(arguments args) {
    frame it;
    state *its = state_of(args[0], IGNORES);
    begin(&it);
    if (its == NULL || !read_string(args[1], OSB_UNIX, NOWHERE, &it.a)) return NULL;
    if (!read_string(args[2], OSB_UNIX, NOWHERE, &it.b) || !is_without_nul(&it.b, NOWHERE)) return ended(&it, NULL);
    osb_view place = from_top((osb_view){it.b.at, it.b.len});
    it.status = osb_ignores_add(its->ignores, place.at, place.len, it.a.at, it.a.len);
    if (it.status != OSB_OK) return ended(&it, refused(&it));
    return ended(&it, Py_BuildValue("y#y#", it.a.at, (Py_ssize_t)it.a.len, place.at, (Py_ssize_t)place.len));
}

/* A path is a directory, too, if it ends with a /. */
static osb_status decide(const state *its, osb_view path, bool is_dir, osb_decision *out) {
    osb_view from = from_top(path);
    return osb_ignores_match(its->ignores, from.at, from.len, is_dir || (path.len > 0 && path.at[path.len - 1] == '/'), out);
}

/* The kind, the line and the file of a verdict. */
static PyObject *verdict(osb_status status, const osb_decision *told) {
    if (status != OSB_OK) return refuse_plainly(status);
    return Py_BuildValue("inn", (int)told->kind, (Py_ssize_t)told->line, (Py_ssize_t)told->file);
}

/* Whether a path is ignored, or its verdict: (files, path, is_dir). */
static PyObject *decided(arguments args, int is_test) {
    frame it;
    osb_decision told;
    state *its = state_of(args[0], IGNORES);
    int is_dir = PyObject_IsTrue(args[2]);
    begin(&it);
    if (its == NULL || is_dir < 0 || !read_string(args[1], OSB_UNIX, NOWHERE, &it.a)) return NULL;
    if (!is_without_nul(&it.a, NOWHERE)) return ended(&it, NULL);
    it.status = decide(its, (osb_view){it.a.at, it.a.len}, is_dir, &told);
    return ended(&it, is_test && it.status == OSB_OK ? PyBool_FromLong(told.kind == OSB_IGNORED) : verdict(it.status, &told));
}

/* The verdict on each path, as a tuple: (files, paths). */
static PyObject *ignores_matched(arguments args) {
    list paths;
    osb_decision told;
    state *its = state_of(args[0], IGNORES);
    if (its == NULL || !read_list(args[1], NULL, OSB_UNIX, &paths)) return NULL;
    PyObject *list = are_without_nul(&paths) ? PyList_New((Py_ssize_t)paths.count) : NULL;
    for (size_t it = 0; list != NULL && it < paths.count; it++) {
        osb_status status = decide(its, paths.views[it], false, &told);
        put(&list, it, verdict(status, &told));
    }
    drop_list(&paths);
    return list;
}

/* A reader of options: (words, platform, numbers). It keeps the words, and their views, which are bytes of an object. */
static PyObject *options_new(arguments args) {
    list words;
    state its = {.kept = NULL};
    int numbers = PyObject_IsTrue(args[2]);
    if (numbers < 0 || !read_platform(args[1], &its.platform) || !read_list(args[0], NULL, its.platform, &words)) return NULL;
    PyObject *it = NULL,
             *views = PyBytes_FromStringAndSize((const char *)words.views, (Py_ssize_t)(words.count * sizeof *words.views));
    its.is_text = words.first.is_text;
    if (views != NULL && (its.kept = Py_BuildValue("(OO)", words.items, views)) != NULL) {
        osb_status status =
            osb_options_start(&its.options, (const osb_view *)PyBytes_AsString(views), words.count, numbers ? OSB_NUMBERS : 0);
        it = status == OSB_OK ? keep(OPTIONS, &its) : refuse_plainly(status);
    }
    Py_XDECREF(views);
    Py_XDECREF(its.kept);
    drop_list(&words);
    return it;
}

static PyObject *options_copy(arguments args) {
    const state *its = state_of(args[0], OPTIONS);
    return its == NULL ? NULL : keep(OPTIONS, its);
}

/* The next option's kind and text, 0 and the value that nothing took, or None: (options). */
static PyObject *options_next(arguments args) {
    osb_option option;
    state *its = state_of(args[0], OPTIONS);
    if (its == NULL) return NULL;
    osb_status status = osb_options_next(&its->options, &option);
    if (status == OSB_ENDED) Py_RETURN_NONE;
    if (status != OSB_OK && status != OSB_UNEXPECTED) return refuse_plainly(status);
    PyObject *text = made(option.text.at, option.text.len, its->is_text, its->platform);
    return text == NULL ? NULL : Py_BuildValue("iN", status == OSB_OK ? (int)option.kind : 0, text);
}

/* The value of the option: (options). */
typedef osb_status value_call(osb_options *, osb_view *);
static PyObject *option_value(arguments args, value_call *call) {
    osb_view view = {NULL, 0};
    state *its = state_of(args[0], OPTIONS);
    if (its == NULL) return NULL;
    osb_status status = call(&its->options, &view);
    if (status == OSB_NONE) Py_RETURN_NONE;
    return status == OSB_OK ? made(view.at, view.len, its->is_text, its->platform) : refuse_plainly(status);
}

static PyObject *version(arguments args) {
    uint32_t number = osb_version();
    return PyUnicode_FromFormat("%u.%u.%u", number / 10000, number / 100 % 100, number % 100);
}

static PyObject *status_text(arguments args) {
    return PyUnicode_FromString(osb_status_text((osb_status)PyLong_AsLong(args[0])));
}

/* The functions of the module: the name, the number of arguments, the shape, and what the shape is given. */
/* clang-format off */
#define CALLS(of) \
    of(display, 2, text, osb_lossy, 3) of(escape, 2, text, osb_escape, 6) of(escape_line, 2, text, osb_escape_line, 6) \
    of(unescape, 2, unescaped, osb_unescape) of(unescape_line, 2, unescaped, osb_unescape_line) \
    of(is_string, 2, checked, 1) of(check, 2, checked, 0) of(encode, 2, coded, 0) of(decode, 2, coded, 1) \
    of(find, 2, place, osb_find) of(rfind, 2, place, osb_rfind) of(contains, 2, contained) of(compare, 2, ordered) \
    of(is_boundary, 2, boundary) of(starts_with, 3, compared, osb_starts_with_units) \
    of(ends_with, 3, compared, osb_ends_with_units) of(split, 3, pieces, osb_split_start, osb_split_fill, 0) \
    of(rsplit, 3, pieces, osb_rsplit_start, osb_rsplit_fill, 1) of(chunks, 1, chunks_of) of(more_chunks, 1, more_chunks) \
    of(symbols, 2, symbols_of) of(more_symbols, 1, more_symbols) of(checker_new, 0, checker_new) \
    of(checker_feed, 2, checker_feed) of(checker_finish, 1, checker_finish) of(to_units, 1, units) \
    of(from_wide, 1, from_wide) of(path_components, 2, components) of(path_parent, 2, part, osb_path_parent) \
    of(path_prefix, 2, part, osb_path_prefix) of(path_file_name, 2, part, osb_path_file_name) \
    of(path_file_stem, 2, part, osb_path_file_stem) of(path_extension, 2, part, osb_path_extension) \
    of(path_has_root, 2, holds, osb_path_has_root) of(path_is_absolute, 2, holds, osb_path_is_absolute) \
    of(path_starts_with, 3, compared, osb_path_starts_with) of(path_ends_with, 3, compared, osb_path_ends_with) \
    of(path_strip_prefix, 3, rest) of(path_join, 3, of_two, osb_path_join) of(path_join_checked, 3, below) \
    of(path_relative, 3, of_two, osb_path_relative) of(path_normalize, 2, of_one, osb_path_normalize) \
    of(path_clean, 2, of_one, osb_path_clean) of(path_convert, 3, converted) \
    of(path_with_file_name, 3, of_two, osb_path_with_file_name) \
    of(path_with_extension, 3, of_two, osb_path_with_extension) \
    of(path_with_added_extension, 3, of_two, osb_path_with_added_extension) of(globs_new, 3, globs_new) \
    of(globs_is_match, 2, globs_is_match) of(globs_matches, 2, globs_matches) of(ignores_new, 0, ignores_new) \
    of(ignores_add, 3, ignores_add) of(ignores_is_ignored, 3, decided, 1) of(ignores_verdict, 3, decided, 0) \
    of(ignores_matched, 2, ignores_matched) of(shell_quote, 1, word, osb_shell_quote, OSB_UNIX) \
    of(shell_quote_line, 1, word, osb_shell_quote_line, OSB_UNIX) of(fish_quote, 1, word, osb_fish_quote, OSB_UNIX) \
    of(powershell_quote, 1, word, osb_powershell_quote, OSB_WINDOWS) of(shell_join, 1, joined) \
    of(shell_words, 2, shell_words) of(windows_quote, 1, wide, osb_windows_quote, 0) \
    of(windows_arguments, 1, wide, osb_windows_arguments, 1) of(windows_command_line, 2, command_line) \
    of(options_new, 3, options_new) of(options_copy, 1, options_copy) of(options_next, 1, options_next) \
    of(options_value, 1, option_value, osb_options_value) \
    of(options_optional_value, 1, option_value, osb_options_optional_value) of(version, 0, version) \
    of(status_text, 1, status_text)
/* clang-format on */

#define DEFINED(name, wanted, shape, ...) \
    static PyObject *call_##name(PyObject *self, arguments args, Py_ssize_t count) { \
        if (count == wanted) return shape(args, ##__VA_ARGS__); \
        return PyErr_Format(PyExc_TypeError, #name " takes %d arguments", wanted); \
    }
CALLS(DEFINED)

#define NAMED(name, ...) {#name, (PyCFunction)(void (*)(void))call_##name, METH_FASTCALL, NULL},
static PyMethodDef methods[] = {CALLS(NAMED){NULL, NULL, 0, NULL}};
static PyModuleDef_Slot slots[2];
static PyModuleDef definition = {PyModuleDef_HEAD_INIT, "_core", NULL, 0, methods, slots, NULL, NULL, NULL};

PyMODINIT_FUNC PyInit__core(void) {
    const char *version = Py_GetVersion();
    int is_before_10 = version[3] == '.', is_before_12 = is_before_10 || version[3] < '2';
    /* Py_mod_multiple_interpreters, which earlier Pythons don't know: an interpreter with a lock of its own may load it. */
    if (!is_before_12) slots[0] = (PyModuleDef_Slot){3, (void *)2};
    return PyModuleDef_Init(&definition);
}
