/* What is called once a row, as Python's objects: the rows of a stream, and messages of many values.
 *
 * A thin layer over pg_message.h, which cffi calls for all else. No call lets go of the interpreter's lock, so no thread
 * changes what one reads. */
#define PY_SSIZE_T_CLEAN
#ifndef Py_GIL_DISABLED
#define Py_LIMITED_API 0x030b0000
#endif
#include <Python.h>

#include "pg_message.h"

#include <string.h>

/* The cells that there is room for at first, and the bytes; the bytes of a tag and a length. */
enum { FEW = 64, SHORT_MESSAGE = 512, HEADER = 5 };

/* Raises what pgmsg.fault makes of a refusal. */
static void *refuse(int32_t number, const pgmsg_fault *fault)
{
    PyObject *module = PyImport_ImportModule("pgmsg.fault"), *raised;
    if (module == NULL)
        return NULL;
    raised = fault == NULL ? PyObject_CallMethod(module, "refusal", "i", number)
                           : PyObject_CallMethod(module, "refusal", "is#n", number, (const char *)fault->words,
                                 (Py_ssize_t)fault->words_len, (Py_ssize_t)fault->at);
    Py_DECREF(module);
    if (raised != NULL)
        PyErr_SetObject((PyObject *)Py_TYPE(raised), raised);
    Py_XDECREF(raised);
    return NULL;
}

/* Whether a call got so many arguments. */
static bool has_arguments(Py_ssize_t count, Py_ssize_t due)
{
    if (count != due)
        PyErr_Format(PyExc_TypeError, "expected %zd arguments, got %zd", due, count);
    return count == due;
}

/* ---- Streams ---- */

/* The bytes of a stream, and how many are taken. */
struct stream {
    PyObject *object;
    const uint8_t *bytes;
    Py_ssize_t len, at;
};

static bool take_stream(struct stream *stream, PyObject *bytes, PyObject *at)
{
    char *start;
    if (PyBytes_AsStringAndSize(bytes, &start, &stream->len) < 0)
        return false;
    stream->object = bytes;
    stream->bytes = (const uint8_t *)start;
    stream->at = PyLong_AsSsize_t(at);
    if (stream->at == -1 && PyErr_Occurred())
        return false;
    if (stream->at < 0 || stream->at > stream->len)
        PyErr_SetString(PyExc_IndexError, "no place in the stream");
    return stream->at >= 0 && stream->at <= stream->len;
}

/* Whose messages a stream has: a server's, a client's first ones, or a client's after these. */
enum { OF_SERVER, FIRST_OF_CLIENT, OF_CLIENT };

/* Whether a server sends messages of this tag, which are refused before their bodies come: those that the library knows,
 * and the newer ones, of which it knows no end. */
static bool is_known(uint8_t tag, pgmsg_fault *fault)
{
    return tag == 'V' || tag == 'W' || tag == 'v' || pgmsg_read_end(tag, NULL, 0, fault) != PGMSG_UNKNOWN_MESSAGE_TYPE;
}

static int32_t cut(const struct stream *stream, long side, size_t limit, pgmsg_frame *frame, pgmsg_fault *fault)
{
    const uint8_t *front = stream->bytes + stream->at;
    size_t len = (size_t)(stream->len - stream->at);
    if (side == FIRST_OF_CLIENT)
        return pgmsg_next_first_frame(front, len, limit, frame, fault);
    if (side == OF_CLIENT)
        return pgmsg_next_frontend_frame(front, len, frame, fault);
    if (len >= HEADER && *front != 'D' && !is_known(*front, fault))
        return PGMSG_UNKNOWN_MESSAGE_TYPE;
    return pgmsg_next_frame(front, len, frame, fault);
}

PyDoc_STRVAR(next_frame_words, "next_frame(stream, at, side, limit)\n--\n\nThe tag, the body and the end of the message "
                               "at a place of a stream, or how many bytes are needed from there on.");

static PyObject *next_frame(PyObject *module, PyObject *const *args, Py_ssize_t count)
{
    struct stream stream;
    pgmsg_frame frame;
    pgmsg_fault fault;
    int32_t whole;
    (void)module;
    if (!has_arguments(count, 4) || !take_stream(&stream, args[0], args[1]))
        return NULL;
    long side = PyLong_AsLong(args[2]);
    size_t limit = PyLong_AsSize_t(args[3]);
    if (PyErr_Occurred())
        return NULL;
    whole = cut(&stream, side, limit, &frame, &fault);
    if (whole < 0)
        return refuse(whole, &fault);
    if (whole == 0)
        return PyLong_FromSize_t(frame.length);
    return Py_BuildValue("(iy#n)", frame.tag, (const char *)stream.bytes + stream.at + frame.body.at,
        (Py_ssize_t)frame.body.len, stream.at + (Py_ssize_t)frame.length);
}

/* ---- Rows ---- */

/* How cells are given: as str, as bytes, or as views of the stream. */
enum { AS_STR, AS_BYTES, AS_VIEWS };

/* Room for the cells of a row. */
struct cells {
    pgmsg_cell few[FEW], *items;
    size_t room;
};

static void begin_cells(struct cells *cells)
{
    cells->items = cells->few;
    cells->room = FEW;
}

static void end_cells(struct cells *cells)
{
    if (cells->items != cells->few)
        PyMem_Free(cells->items);
}

/* How many cells a body has, which are in the room then; below 0 where it is refused, and where memory is. */
static ptrdiff_t read_cells(struct cells *cells, const uint8_t *body, size_t len, pgmsg_fault *fault)
{
    ptrdiff_t count = pgmsg_read_row(body, len, cells->items, cells->room, fault);
    if (count <= (ptrdiff_t)cells->room)
        return count;
    pgmsg_cell *more = PyMem_Malloc((size_t)count * sizeof *more);
    if (more == NULL)
        return PGMSG_OUT_OF_MEMORY;
    end_cells(cells);
    cells->items = more;
    cells->room = (size_t)count;
    return pgmsg_read_row(body, len, cells->items, cells->room, fault);
}

/* A cell of a body that begins at an offset of the stream. */
static PyObject *cell_of(PyObject *view, const uint8_t *body, Py_ssize_t offset, pgmsg_cell cell, long kind)
{
    const char *start = (const char *)body + cell.at;
    if (cell.len < 0)
        return Py_NewRef(Py_None);
    if (kind == AS_STR)
        return PyUnicode_DecodeUTF8(start, cell.len, NULL);
    if (kind == AS_BYTES)
        return PyBytes_FromStringAndSize(start, cell.len);
    return PySequence_GetSlice(view, offset + cell.at, offset + cell.at + cell.len);
}

static PyObject *row_of(PyObject *view, const uint8_t *body, Py_ssize_t offset, const pgmsg_cell *cells,
    Py_ssize_t count, long kind)
{
    PyObject *row = PyTuple_New(count);
    for (Py_ssize_t at = 0; row != NULL && at < count; at++) {
        PyObject *cell = cell_of(view, body, offset, cells[at], kind);
        if (cell == NULL || PyTuple_SetItem(row, at, cell) < 0)
            Py_CLEAR(row);
    }
    return row;
}

/* How rows are asked for: the kind of their cells, and how long a message may be. */
struct asked {
    long kind;
    size_t longest;
};

/* Refuses what comes after these rows: by the next call where there are some, so that they are given, and memory is there. */
static int refuse_later(PyObject *rows, int32_t number, const pgmsg_fault *fault)
{
    if (number != PGMSG_OUT_OF_MEMORY && PyList_Size(rows) > 0)
        return 0;
    refuse(number, number == PGMSG_OUT_OF_MEMORY ? NULL : fault);
    return -1;
}

/* Reads a row and moves on behind it. 1, or 0 with how many bytes are needed, which are none where no row is at the
 * front, and more than a message may have where the row is too long; -1 after an error. */
static int take_row(struct stream *stream, struct cells *cells, PyObject *view, const struct asked *asked, PyObject *rows,
    size_t *needed)
{
    pgmsg_frame frame;
    pgmsg_fault fault;
    *needed = 0;
    if (stream->at < stream->len && stream->bytes[stream->at] != 'D')
        return 0;
    int32_t whole = cut(stream, OF_SERVER, 0, &frame, &fault);
    if (whole < 0)
        return refuse_later(rows, whole, &fault);
    if (whole == 0 || frame.length > asked->longest) {
        *needed = frame.length;
        return 0;
    }
    Py_ssize_t offset = stream->at + (Py_ssize_t)frame.body.at;
    ptrdiff_t count = read_cells(cells, stream->bytes + offset, frame.body.len, &fault);
    if (count < 0)
        return refuse_later(rows, (int32_t)count, &fault);
    PyObject *row = row_of(view, stream->bytes + offset, offset, cells->items, count, asked->kind);
    if (row == NULL || PyList_Append(rows, row) < 0) {
        Py_XDECREF(row);
        return -1;
    }
    Py_DECREF(row);
    stream->at += (Py_ssize_t)frame.length;
    return 1;
}

/* Whether a cell that isn't UTF-8 waits for the next call, so that the rows before it are given. No other exception may wait:
 * it could be one of a signal. */
static bool is_put_off(PyObject *rows)
{
    bool waits = PyList_Size(rows) > 0 && PyErr_ExceptionMatches(PyExc_UnicodeDecodeError);
    if (waits)
        PyErr_Clear();
    return waits;
}

PyDoc_STRVAR(rows_words, "rows(stream, at, kind, longest)\n--\n\nThe rows at a place of a stream, their end, and how many bytes "
                         "the next one needs, 0 where what comes is no row. A row of more than `longest` bytes isn't read.");

static PyObject *rows(PyObject *module, PyObject *const *args, Py_ssize_t count)
{
    struct stream stream;
    struct cells cells;
    size_t needed = 0;
    (void)module;
    if (!has_arguments(count, 4) || !take_stream(&stream, args[0], args[1]))
        return NULL;
    const struct asked asked = {PyLong_AsLong(args[2]), PyLong_AsSize_t(args[3])};
    if (PyErr_Occurred())
        return NULL;
    PyObject *view = PyMemoryView_FromObject(stream.object), *found = PyList_New(0);
    int taken = view == NULL || found == NULL ? -1 : 1;
    begin_cells(&cells);
    while (taken > 0)
        taken = take_row(&stream, &cells, view, &asked, found, &needed);
    end_cells(&cells);
    Py_XDECREF(view);
    if (taken < 0 && (found == NULL || !is_put_off(found))) {
        Py_XDECREF(found);
        return NULL;
    }
    return Py_BuildValue("(Nnn)", found, stream.at, (Py_ssize_t)needed);
}

PyDoc_STRVAR(cells_words, "cells(body)\n--\n\nThe cells of a row, by the body of its DataRow.");

static PyObject *cells(PyObject *module, PyObject *body)
{
    struct cells cells;
    pgmsg_fault fault;
    char *start;
    Py_ssize_t len;
    PyObject *row = NULL;
    (void)module;
    if (PyBytes_AsStringAndSize(body, &start, &len) < 0)
        return NULL;
    begin_cells(&cells);
    ptrdiff_t count = read_cells(&cells, (const uint8_t *)start, (size_t)len, &fault);
    if (count < 0)
        refuse((int32_t)count, count == PGMSG_OUT_OF_MEMORY ? NULL : &fault);
    else
        row = row_of(NULL, (const uint8_t *)start, 0, cells.items, count, AS_BYTES);
    end_cells(&cells);
    return row;
}

/* ---- Messages of values ---- */

/* The bytes that are written, in `few` as long as there is room. */
struct out {
    uint8_t few[SHORT_MESSAGE], *bytes;
    size_t used, room;
};

static void begin(struct out *out)
{
    out->bytes = out->few;
    out->used = 0;
    out->room = SHORT_MESSAGE;
}

static bool grow(struct out *out, size_t least)
{
    size_t room = least > 2 * out->room ? least : 2 * out->room;
    bool is_few = out->bytes == out->few;
    uint8_t *bytes = PyMem_Realloc(is_few ? NULL : out->bytes, room);
    if (bytes == NULL) {
        PyErr_NoMemory();
        return false;
    }
    if (is_few)
        memcpy(bytes, out->few, out->used);
    out->bytes = bytes;
    out->room = room;
    return true;
}

/* All that was written, where no error stopped it. */
static PyObject *end(struct out *out, bool is_whole)
{
    PyObject *bytes = NULL;
    if (is_whole)
        bytes = PyBytes_FromStringAndSize((const char *)out->bytes, (Py_ssize_t)out->used);
    if (out->bytes != out->few)
        PyMem_Free(out->bytes);
    return bytes;
}

/* The bytes of a str or of bytes, which last as long as the object. */
static bool take_text(PyObject *object, pgmsg_bytes *text)
{
    Py_ssize_t len;
    char *start = NULL;
    if (PyUnicode_Check(object))
        start = (char *)PyUnicode_AsUTF8AndSize(object, &len);
    else if (PyBytes_AsStringAndSize(object, &start, &len) < 0)
        return false;
    text->bytes = (const uint8_t *)start;
    text->bytes_len = start == NULL ? 0 : (size_t)len;
    return start != NULL;
}

/* Values that a message has, and what keeps their bytes in place. */
struct values {
    PyObject *items;
    pgmsg_value *places;
    Py_buffer *held;
    Py_ssize_t count, held_count;
};

/* The bytes of an object that has a buffer, which is held. */
static bool hold(struct values *values, PyObject *item, pgmsg_value *place)
{
    if (values->held == NULL)
        values->held = PyMem_Calloc((size_t)values->count, sizeof *values->held);
    if (values->held == NULL) {
        PyErr_NoMemory();
        return false;
    }
    Py_buffer *buffer = &values->held[values->held_count];
    if (PyObject_GetBuffer(item, buffer, PyBUF_SIMPLE) < 0)
        return false;
    values->held_count++;
    place->bytes = buffer->buf;
    place->bytes_len = (size_t)buffer->len;
    return true;
}

static bool take_value(struct values *values, PyObject *item, pgmsg_value *place)
{
    pgmsg_bytes text = {NULL, 0};
    place->is_null = item == Py_None;
    if (!place->is_null && !PyUnicode_Check(item) && !PyBytes_Check(item))
        return hold(values, item, place);
    if (!place->is_null && !take_text(item, &text))
        return false;
    place->bytes = text.bytes;
    place->bytes_len = text.bytes_len;
    return true;
}

/* Takes the values of an iterable; `drop_values` is due after it, also where it fails. */
static bool take_values(struct values *values, PyObject *given)
{
    memset(values, 0, sizeof *values);
    values->items = PySequence_Tuple(given);
    if (values->items == NULL)
        return false;
    values->count = PyTuple_Size(values->items);
    values->places = PyMem_Malloc(((size_t)values->count + 1) * sizeof *values->places);
    if (values->places == NULL) {
        PyErr_NoMemory();
        return false;
    }
    for (Py_ssize_t at = 0; at < values->count; at++)
        if (!take_value(values, PyTuple_GetItem(values->items, at), &values->places[at]))
            return false;
    return true;
}

static void drop_values(struct values *values)
{
    while (values->held_count > 0)
        PyBuffer_Release(&values->held[--values->held_count]);
    PyMem_Free(values->held);
    PyMem_Free(values->places);
    Py_XDECREF(values->items);
}

/* All that a message with values says. The formats are arrays of numbers of 16 bits. */
struct said {
    pgmsg_bytes portal, statement;
    Py_buffer formats, result_formats;
    struct values values;
    uint32_t limit;
};

typedef ptrdiff_t put_call(const struct said *said, uint8_t *out, size_t room);

static ptrdiff_t put_bind(const struct said *said, uint8_t *out, size_t room)
{
    return pgmsg_put_bind(said->portal.bytes, said->portal.bytes_len, said->statement.bytes, said->statement.bytes_len,
        said->formats.buf, (size_t)said->formats.len / sizeof(uint16_t), said->values.places, (size_t)said->values.count,
        said->result_formats.buf, (size_t)said->result_formats.len / sizeof(uint16_t), out, room);
}

static ptrdiff_t put_execute(const struct said *said, uint8_t *out, size_t room)
{
    return pgmsg_put_execute(said->portal.bytes, said->portal.bytes_len, said->limit, out, room);
}

static ptrdiff_t put_row(const struct said *said, uint8_t *out, size_t room)
{
    return pgmsg_put_row(said->values.places, (size_t)said->values.count, out, room);
}

/* Appends a message. */
static bool append(struct out *out, put_call *put, const struct said *said)
{
    ptrdiff_t length;
    while ((length = put(said, out->bytes + out->used, out->room - out->used)) > (ptrdiff_t)(out->room - out->used))
        if (!grow(out, out->used + (size_t)length))
            return false;
    if (length < 0)
        refuse((int32_t)length, NULL);
    else
        out->used += (size_t)length;
    return length >= 0;
}

/* Appends a message of each of many values, and perhaps a second one. */
static bool append_each(struct out *out, PyObject *many, put_call *put, put_call *second, struct said *said)
{
    PyObject *each = PyObject_GetIter(many), *given = NULL;
    bool is_right = each != NULL;
    while (is_right && (given = PyIter_Next(each)) != NULL) {
        is_right = take_values(&said->values, given) && append(out, put, said)
            && (second == NULL || append(out, second, said));
        drop_values(&said->values);
        Py_DECREF(given);
    }
    Py_XDECREF(each);
    return is_right && !PyErr_Occurred();
}

/* A number of 32 bits. */
static bool take_number(PyObject *object, uint32_t *number)
{
    unsigned long long given = PyLong_AsUnsignedLongLong(object);
    if (!PyErr_Occurred() && given > UINT32_MAX)
        PyErr_Format(PyExc_OverflowError, "%llu is not a number of 32 bits", given);
    *number = (uint32_t)given;
    return !PyErr_Occurred();
}

PyDoc_STRVAR(binds_words, "binds(many, statement, portal, formats, result_formats, limit)\n--\n\nA Bind for each of many "
                          "values, by arrays of formats, and after each an Execute, unless its limit is None.");

static PyObject *binds(PyObject *module, PyObject *const *args, Py_ssize_t count)
{
    struct said said;
    struct out out;
    (void)module;
    if (!has_arguments(count, 6) || !take_text(args[1], &said.statement) || !take_text(args[2], &said.portal))
        return NULL;
    bool has_limit = args[5] != Py_None;
    if (has_limit && !take_number(args[5], &said.limit))
        return NULL;
    if (PyObject_GetBuffer(args[3], &said.formats, PyBUF_SIMPLE) < 0)
        return NULL;
    begin(&out);
    bool is_right = PyObject_GetBuffer(args[4], &said.result_formats, PyBUF_SIMPLE) == 0;
    if (is_right) {
        is_right = append_each(&out, args[0], put_bind, has_limit ? put_execute : NULL, &said);
        PyBuffer_Release(&said.result_formats);
    }
    PyBuffer_Release(&said.formats);
    return end(&out, is_right);
}

PyDoc_STRVAR(data_rows_words, "data_rows(many)\n--\n\nA DataRow for each of many values.");

static PyObject *data_rows(PyObject *module, PyObject *many)
{
    struct said said;
    struct out out;
    (void)module;
    begin(&out);
    return end(&out, append_each(&out, many, put_row, NULL, &said));
}

/* ---- The module ---- */

static int check_version(PyObject *module)
{
    const char *version = pgmsg_version();
    (void)module;
    if (strncmp(version, PGMSG_VERSION " ", sizeof PGMSG_VERSION) == 0)
        return PyModule_AddStringConstant(module, "VERSION", PGMSG_VERSION);
    PyErr_Format(PyExc_ImportError, "the library is of version %s, and its header of " PGMSG_VERSION, version);
    return -1;
}

#define FAST(call) {#call, (PyCFunction)(void (*)(void))call, METH_FASTCALL, call##_words}

static PyMethodDef methods[] = {
    FAST(next_frame),
    FAST(rows),
    FAST(binds),
    {"cells", cells, METH_O, cells_words},
    {"data_rows", data_rows, METH_O, data_rows_words},
    {NULL, NULL, 0, NULL},
};

static PyModuleDef_Slot slots[] = {{Py_mod_exec, (void *)check_version}, {0, NULL}};

static struct PyModuleDef definition = {
    PyModuleDef_HEAD_INIT, "pgmsg._fast", "What is called once a row.", 0, methods, slots, NULL, NULL, NULL,
};

PyMODINIT_FUNC PyInit__fast(void)
{
    return PyModuleDef_Init(&definition);
}
