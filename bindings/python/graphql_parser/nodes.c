/* Makes graphql-core's nodes of the library's JSON. `_nodes.py` calls it, and does the same in Python where it is missing.
 *
 * Each object of the JSON becomes a node, whose slots are written where they lie. What the library's places leave out is
 * found in the text: inside a list, an object or a list type its tokens are walked along with the JSON.
 *
 * A function that fails gives NULL or false, and has set an exception, but where `is_repeated` is set.
 */
#define PY_SSIZE_T_CLEAN
#include <Python.h>
#include <stdbool.h>
#include <string.h>
#include <structmember.h>

enum { MOST_MEMBERS = 8, MOST_KINDS = 64 };

/* How many nodes may stand in each other: the library's largest limits allow some 1,040. */
enum { DEEPEST = 1200 };

static const Py_ssize_t NOWHERE = -1;

/* How a node begins in the text, and what is found there. */
typedef enum { PLAIN, WORD, STRING, VARIABLE, LIST, LIST_TYPE, OBJECT, NAMED, WITH_ROOTS, ROOT } Role;

static const struct {
    const char *kind;
    Role role;
} ROLES[] = {
    {"Name", WORD},
    {"IntValue", WORD},
    {"FloatValue", WORD},
    {"BooleanValue", WORD},
    {"NullValue", WORD},
    {"EnumValue", WORD},
    {"StringValue", STRING},
    {"Variable", VARIABLE},
    {"ListValue", LIST},
    {"ListType", LIST_TYPE},
    {"ObjectValue", OBJECT},
    {"OperationDefinition", NAMED},
    {"FragmentDefinition", NAMED},
    {"SchemaDefinition", WITH_ROOTS},
    {"SchemaExtension", WITH_ROOTS},
    {"OperationTypeDefinition", ROOT},
};

/* A name in the JSON. */
typedef struct {
    const char *start;
    size_t length;
} Word;

/* A member of an object of the JSON, and where a node has its value. */
typedef struct {
    Word name;
    Py_ssize_t offset;
} Member;

typedef struct {
    Word name;
    Role role;
    PyTypeObject *node;
    PyTypeObject *location;
    Py_ssize_t block;
    size_t member_count;
    Member members[MOST_MEMBERS];
} Kind;

/* What `setup` was given: `given` owns all that the rest points to. */
typedef struct {
    PyObject *given;
    PyObject *operations, *scan_string;
    Py_ssize_t loc, start, source;
    size_t kind_count;
    Kind kinds[MOST_KINDS];
} Forms;

/* What is read, and how far. */
typedef struct {
    const Forms *forms;
    const char *json_start, *json, *json_end;
    /* The text, and the offset at which each of its lines begins. */
    int text_kind;
    const void *text;
    Py_ssize_t text_length;
    Py_ssize_t *lines;
    Py_ssize_t line_count;
    /* Of locations; null where nodes get none. */
    PyObject *source;
    /* Makes the node at an offset, of a list or an object in which an object has a field twice. */
    PyObject *repeated;
    /* Inside a list, an object or a list type the offset after the last token, else nowhere. */
    Py_ssize_t at;
    /* The JSON and the tokens have parted: the text has fields that the JSON has once. */
    bool is_repeated;
    /* The last place that was read, and where to look for the next root of a schema. */
    Py_ssize_t placed, roots_from;
    int depth;
    /* The items of the lists that are open. */
    PyObject **items;
    size_t item_count, item_room;
} Reader;

static PyObject *read_node(Reader *reader, Py_ssize_t begins);

static void *malformed(const Reader *reader) {
    PyErr_Format(PyExc_ValueError, "the library's JSON isn't as expected at byte %zd", reader->json - reader->json_start);
    return NULL;
}

/* The text's tokens. Past its end there is the character 0, which no token has. */

static Py_UCS4 character(const Reader *reader, Py_ssize_t at) {
    return at < reader->text_length ? PyUnicode_READ(reader->text_kind, reader->text, at) : 0;
}

static bool is_word(Py_UCS4 one) {
    return (one >= 'a' && one <= 'z') || (one >= 'A' && one <= 'Z') || (one >= '0' && one <= '9') || one == '_' || one == '.' ||
           one == '+' || one == '-';
}

static bool is_between(Py_UCS4 one) {
    return one == 0xfeff || (one && one < 128 && strchr(" \t\n\r,:!()=@&|", (int)one));
}

static Py_ssize_t word_end(const Reader *reader, Py_ssize_t at) {
    while (is_word(character(reader, at))) at++;
    return at;
}

/* Where the next word, string, bracket or dollar sign begins. */
static Py_ssize_t next_token(const Reader *reader, Py_ssize_t at) {
    for (; at < reader->text_length; at++) {
        Py_UCS4 one = character(reader, at);
        if (one == '#') {
            while (at + 1 < reader->text_length && character(reader, at + 1) != '\n' && character(reader, at + 1) != '\r') at++;
        } else if (!is_between(one)) {
            break;
        }
    }
    return at;
}

static bool is_block(const Reader *reader, Py_ssize_t at) {
    return character(reader, at) == '"' && character(reader, at + 1) == '"' && character(reader, at + 2) == '"';
}

static Py_ssize_t string_end(const Reader *reader, Py_ssize_t at) {
    bool in_block = is_block(reader, at);
    for (at += in_block ? 3 : 1; at < reader->text_length; at++) {
        if (character(reader, at) == '\\') {
            /* Before the three quotes of a block string a backslash takes the first, and the others end nothing. */
            if (!in_block) at++;
            else if (is_block(reader, at + 1)) at += 3;
        } else if (in_block ? is_block(reader, at) : character(reader, at) == '"') {
            return at + (in_block ? 3 : 1);
        }
    }
    return reader->text_length;
}

static Py_ssize_t token_end(const Reader *reader, Py_ssize_t at) {
    Py_UCS4 one = character(reader, at);
    return one == '"' ? string_end(reader, at) : is_word(one) ? word_end(reader, at) : at + 1;
}

/* The marks that nodes begin and end with. */
static const char OPENS[] = {[STRING] = '"', [VARIABLE] = '$', [LIST] = '[', [LIST_TYPE] = '[', [OBJECT] = '{', [ROOT] = 0};
static const char CLOSES[] = {[LIST] = ']', [LIST_TYPE] = ']', [OBJECT] = '}', [ROOT] = 0};

/* Goes past the token at an offset, which has to be this mark, or a word where that is 0. */
static bool take(Reader *reader, Py_ssize_t at, char mark) {
    Py_UCS4 found = character(reader, at);
    reader->is_repeated = mark ? found != (Py_UCS4)mark : !is_word(found);
    reader->at = token_end(reader, at);
    return !reader->is_repeated;
}

/* Where the root of a schema begins whose type is at an offset: at the token before that. */
static Py_ssize_t root_start(Reader *reader, Py_ssize_t type_start) {
    Py_ssize_t before = NOWHERE;
    Py_ssize_t at = next_token(reader, reader->roots_from);
    while (at < type_start) {
        before = at;
        at = next_token(reader, token_end(reader, at));
    }
    reader->roots_from = at;
    return at == type_start ? before : NOWHERE;
}

/* The JSON. */

static bool skip(Reader *reader, const char *text) {
    size_t length = strlen(text);
    if ((size_t)(reader->json_end - reader->json) < length || memcmp(reader->json, text, length)) return false;
    reader->json += length;
    return true;
}

static char next_byte(const Reader *reader) {
    return reader->json < reader->json_end ? *reader->json : 0;
}

/* The name of a member or of a kind, up to its quotation mark. */
static bool read_word(Reader *reader, Word *word) {
    const char *end = memchr(reader->json, '"', (size_t)(reader->json_end - reader->json));
    if (!end) return malformed(reader);
    *word = (Word){reader->json, (size_t)(end - reader->json)};
    reader->json = end + 1;
    return true;
}

static bool is_same(Word one, Word other) {
    return one.length == other.length && memcmp(one.start, other.start, one.length) == 0;
}

static bool read_number(Reader *reader, Py_ssize_t *number) {
    const char *start = reader->json;
    for (*number = 0; next_byte(reader) >= '0' && next_byte(reader) <= '9'; reader->json++) {
        if (*number > PY_SSIZE_T_MAX / 10 - 1) return malformed(reader);
        *number = *number * 10 + (*reader->json - '0');
    }
    return reader->json > start || malformed(reader);
}

/* The place of a node, which follows its kind; nowhere, where it has none. */
static bool read_place(Reader *reader, Py_ssize_t *start) {
    Py_ssize_t line, column;
    *start = NOWHERE;
    if (!skip(reader, ",\"line\":")) return true;
    if (!read_number(reader, &line)) return false;
    if (!skip(reader, ",\"column\":")) return malformed(reader);
    if (!read_number(reader, &column)) return false;
    if (line < 1 || line > reader->line_count || column < 1) return malformed(reader);
    if (column - 1 > reader->text_length - reader->lines[line - 1]) return malformed(reader);
    *start = reader->placed = reader->lines[line - 1] + column - 1;
    return true;
}

/* A string, after its quotation mark. */
static PyObject *read_string(Reader *reader) {
    const char *start = reader->json, *end = start;
    for (; end < reader->json_end && *end != '"' && *end != '\\'; end++) continue;
    bool has_escapes = end < reader->json_end && *end == '\\';
    for (; end < reader->json_end && *end != '"'; end++) end += *end == '\\';
    if (end >= reader->json_end) return malformed(reader);
    reader->json = end + 1;
    if (!has_escapes) return PyUnicode_DecodeUTF8(start, end - start, NULL);
    /* With the mark at its end: gives the string and where it ends. */
    PyObject *text = PyUnicode_DecodeUTF8(start, reader->json - start, NULL);
    PyObject *pair = text ? PyObject_CallFunction(reader->forms->scan_string, "Oi", text, 0) : NULL;
    Py_XDECREF(text);
    text = pair && PyTuple_Check(pair) && PyTuple_GET_SIZE(pair) == 2 ? PyTuple_GET_ITEM(pair, 0) : NULL;
    Py_XINCREF(text);
    Py_XDECREF(pair);
    return text || PyErr_Occurred() ? text : malformed(reader);
}

static bool keep_item(Reader *reader, PyObject *item) {
    if (reader->item_count == reader->item_room) {
        size_t room = reader->item_room * 2 + 16;
        PyObject **items = PyMem_Realloc(reader->items, room * sizeof *items);
        if (!items) {
            Py_DECREF(item);
            return PyErr_NoMemory();
        }
        reader->items = items;
        reader->item_room = room;
    }
    reader->items[reader->item_count++] = item;
    return true;
}

static void drop_items(Reader *reader, size_t first) {
    while (reader->item_count > first) Py_DECREF(reader->items[--reader->item_count]);
}

/* The items of a list that are left, up to its bracket. */
static bool read_items(Reader *reader) {
    if (skip(reader, "]")) return true;
    do {
        PyObject *item = read_node(reader, NOWHERE);
        if (!item || !keep_item(reader, item)) return false;
    } while (skip(reader, ","));
    return skip(reader, "]") || malformed(reader);
}

/* A tuple, of a list after its bracket. */
static PyObject *read_list(Reader *reader) {
    size_t first = reader->item_count;
    PyObject *list = read_items(reader) ? PyTuple_New((Py_ssize_t)(reader->item_count - first)) : NULL;
    if (!list) {
        drop_items(reader, first);
        return NULL;
    }
    for (size_t at = first; at < reader->item_count; at++) {
        PyTuple_SET_ITEM(list, (Py_ssize_t)(at - first), reader->items[at]);
    }
    reader->item_count = first;
    return list;
}

/* The value of the member `operation`. */
static PyObject *read_operation(Reader *reader) {
    PyObject *name = read_string(reader);
    if (!name) return NULL;
    PyObject *operation = PyDict_GetItemWithError(reader->forms->operations, name);
    Py_DECREF(name);
    if (!operation) return PyErr_Occurred() ? NULL : malformed(reader);
    Py_INCREF(operation);
    return operation;
}

static PyObject *read_value(Reader *reader, Word member, Py_ssize_t begins) {
    if (next_byte(reader) == '{') return read_node(reader, begins);
    if (skip(reader, "[")) return read_list(reader);
    if (skip(reader, "\"")) return is_same(member, (Word){"operation", 9}) ? read_operation(reader) : read_string(reader);
    if (skip(reader, "true")) Py_RETURN_TRUE;
    if (skip(reader, "false")) Py_RETURN_FALSE;
    return malformed(reader);
}

/* Nodes. */

static PyObject **slot_of(PyObject *node, Py_ssize_t offset) {
    return (PyObject **)((char *)node + offset);
}

/* Writes a slot, which takes the value. */
static void set_slot(PyObject *node, Py_ssize_t offset, PyObject *value) {
    Py_XSETREF(*slot_of(node, offset), value);
}

static bool locate(Reader *reader, const Kind *kind, PyObject *node, Py_ssize_t start) {
    if (!reader->source) return true;
    PyObject *location = kind->location->tp_alloc(kind->location, 0);
    if (!location) return false;
    set_slot(node, reader->forms->loc, location);
    PyObject *offset = PyLong_FromSsize_t(start);
    if (!offset) return false;
    set_slot(location, reader->forms->start, offset);
    Py_INCREF(reader->source);
    set_slot(location, reader->forms->source, reader->source);
    return true;
}

/* The members of a node, up to the brace that closes it. `begins` is where a node in it begins that has no place. */
static bool read_members(Reader *reader, const Kind *kind, PyObject *node, Py_ssize_t begins) {
    while (skip(reader, ",\"")) {
        Word name;
        if (!read_word(reader, &name)) return false;
        size_t at = 0;
        while (at < kind->member_count && !is_same(kind->members[at].name, name)) at++;
        if (at == kind->member_count || !skip(reader, ":")) return malformed(reader);
        PyObject *value = read_value(reader, name, begins);
        if (!value) return false;
        set_slot(node, kind->members[at].offset, value);
    }
    return skip(reader, "}") || malformed(reader);
}

/* Gives each slot that nothing was written to None. */
static void fill(const Forms *forms, const Kind *kind, PyObject *node) {
    for (size_t at = 0; at <= kind->member_count; at++) {
        PyObject **slot = slot_of(node, at < kind->member_count ? kind->members[at].offset : forms->loc);
        if (!*slot) {
            Py_INCREF(Py_None);
            *slot = Py_None;
        }
    }
}

/* Where a node in this one begins that has no place: the name of an operation or a fragment stands after its keyword, that of
 * a variable after the dollar sign. */
static Py_ssize_t inner_start(const Reader *reader, Role role, Py_ssize_t start) {
    if (role != NAMED && role != VARIABLE) return NOWHERE;
    return next_token(reader, role == NAMED ? word_end(reader, start) : start + 1);
}

/* Makes a node of what follows its place. */
static PyObject *make_node(Reader *reader, const Kind *kind, Py_ssize_t start) {
    bool is_walked = reader->at != NOWHERE;
    char opens = OPENS[kind->role], closes = CLOSES[kind->role];
    if (is_walked && (opens || kind->role == WORD) && !take(reader, start, opens)) return NULL;
    PyObject *node = kind->node->tp_alloc(kind->node, 0);
    if (!node) return NULL;
    if (kind->role == WITH_ROOTS) reader->roots_from = start;
    if (kind->role == STRING) set_slot(node, kind->block, PyBool_FromLong(is_block(reader, start)));
    bool is_made = start == NOWHERE || locate(reader, kind, node, start);
    is_made = is_made && read_members(reader, kind, node, inner_start(reader, kind->role, start));
    if (is_made && kind->role == ROOT) {
        start = root_start(reader, reader->placed);
        is_made = start == NOWHERE ? malformed(reader) != NULL : locate(reader, kind, node, start);
    }
    if (is_made && is_walked && closes) is_made = take(reader, next_token(reader, reader->at), closes);
    fill(reader->forms, kind, node);
    if (!is_made) Py_CLEAR(node);
    return node;
}

/* Goes past the object of the JSON that begins here. */
static bool skip_object(Reader *reader) {
    bool in_string = false;
    int depth = 0;
    for (; reader->json < reader->json_end; reader->json++) {
        char one = *reader->json;
        if (in_string && one == '\\') reader->json++;
        else if (one == '"') in_string = !in_string;
        else if (!in_string && one == '{') depth++;
        else if (!in_string && one == '}' && --depth == 0) {
            reader->json++;
            return true;
        }
    }
    reader->json = reader->json_end;
    return malformed(reader);
}

/* Makes the list, the object or the list type at an offset, whose JSON is at `json`, and all that is in it. */
static PyObject *make_outermost(Reader *reader, const Kind *kind, Py_ssize_t start, const char *json) {
    reader->at = start;
    PyObject *node = make_node(reader, kind, start);
    reader->at = NOWHERE;
    if (node || !reader->is_repeated) return node;
    reader->is_repeated = false;
    if (kind->role == LIST_TYPE) return malformed(reader);
    reader->json = json;
    if (!skip_object(reader)) return NULL;
    return PyObject_CallFunction(reader->repeated, "n", start);
}

static const Kind *read_kind(Reader *reader) {
    Word name;
    if (!skip(reader, "{\"kind\":\"")) return malformed(reader);
    if (!read_word(reader, &name)) return NULL;
    for (size_t at = 0; at < reader->forms->kind_count; at++) {
        if (is_same(reader->forms->kinds[at].name, name)) return &reader->forms->kinds[at];
    }
    return malformed(reader);
}

/* A node. `begins` is where it begins, if it has no place and isn't inside a list, an object or a list type. */
static PyObject *read_node(Reader *reader, Py_ssize_t begins) {
    const char *json = reader->json;
    const Kind *kind = read_kind(reader);
    Py_ssize_t start;
    if (!kind || !read_place(reader, &start)) return NULL;
    bool is_inside = reader->at != NOWHERE;
    if (is_inside) start = next_token(reader, reader->at);
    else if (start == NOWHERE) start = begins;
    if ((start == NOWHERE && kind->role != ROOT) || reader->depth == DEEPEST) return malformed(reader);
    reader->depth++;
    PyObject *node = CLOSES[kind->role] && !is_inside ? make_outermost(reader, kind, start, json) : make_node(reader, kind, start);
    reader->depth--;
    return node;
}

/* Notes where the lines of the text begin. */
static bool find_lines(Reader *reader) {
    reader->line_count = 1;
    for (Py_ssize_t at = 0; at < reader->text_length; at++) reader->line_count += character(reader, at) == '\n';
    reader->lines = PyMem_New(Py_ssize_t, (size_t)reader->line_count);
    if (!reader->lines) return PyErr_NoMemory();
    Py_ssize_t *line = reader->lines;
    *line++ = 0;
    for (Py_ssize_t at = 0; at < reader->text_length; at++) {
        if (character(reader, at) == '\n') *line++ = at + 1;
    }
    return true;
}

/* What the module has. */

PyDoc_STRVAR(document_doc, "document(written, body, source, repeated)\n--\n\n"
"The DocumentNode of the library's JSON, bytes with places, of the text `body`, whose lines end in line feeds.\n\n"
"Its nodes have locations in `source`, or none if that is None. `repeated` makes the node at an offset: of a list or an\n"
"object in which an object has a field twice.");

static PyObject *document(PyObject *module, PyObject *arguments) {
    PyObject *text, *source;
    Py_ssize_t length;
    Reader reader = {.forms = PyModule_GetState(module), .at = NOWHERE, .placed = NOWHERE};
    if (!PyArg_ParseTuple(arguments, "y#UOO:document", &reader.json, &length, &text, &source, &reader.repeated)) return NULL;
#if PY_VERSION_HEX < 0x030c0000
    if (PyUnicode_READY(text) < 0) return NULL;
#endif
    reader.json_start = reader.json;
    reader.json_end = reader.json + length;
    reader.text_kind = PyUnicode_KIND(text);
    reader.text = PyUnicode_DATA(text);
    reader.text_length = PyUnicode_GET_LENGTH(text);
    reader.source = source == Py_None ? NULL : source;
    PyObject *node = find_lines(&reader) ? read_node(&reader, 0) : NULL;
    if (node && reader.json != reader.json_end) {
        Py_CLEAR(node);
        malformed(&reader);
    }
    PyMem_Free(reader.items);
    PyMem_Free(reader.lines);
    return node;
}

/* The offset of a slot of a class. */
static bool find_slot(PyTypeObject *node, PyObject *slot, Py_ssize_t *offset) {
    if (Py_TYPE(slot) == &PyMemberDescr_Type && PyType_IsSubtype(node, PyDescr_TYPE(slot))) {
        const PyMemberDef *member = ((PyMemberDescrObject *)slot)->d_member;
        *offset = member->offset;
        if (member->type == T_OBJECT_EX && member->flags == 0) return true;
    }
    PyErr_SetString(PyExc_TypeError, "an attribute of a node isn't kept in a slot");
    return false;
}

static bool find_word(PyObject *text, Word *word) {
    Py_ssize_t length;
    word->start = PyUnicode_AsUTF8AndSize(text, &length);
    word->length = (size_t)length;
    return word->start != NULL;
}

/* A kind, from its name, the classes of its nodes and their locations, and pairs of a member and a slot. */
static bool take_kind(Kind *kind, PyObject *given) {
    PyObject *name, *members;
    if (!PyArg_ParseTuple(given, "UO!O!O!", &name, &PyType_Type, &kind->node, &PyType_Type, &kind->location, &PyTuple_Type,
                          &members)) return false;
    if (!find_word(name, &kind->name)) return false;
    for (size_t at = 0; at < sizeof ROLES / sizeof *ROLES; at++) {
        if (strcmp(kind->name.start, ROLES[at].kind) == 0) kind->role = ROLES[at].role;
    }
    for (Py_ssize_t at = 0; at < PyTuple_GET_SIZE(members); at++) {
        Member *member = &kind->members[kind->member_count++];
        PyObject *slot;
        if (kind->member_count > MOST_MEMBERS) {
            PyErr_SetString(PyExc_TypeError, "a node has too many attributes");
            return false;
        }
        if (!PyArg_ParseTuple(PyTuple_GET_ITEM(members, at), "UO", &name, &slot)) return false;
        if (!find_word(name, &member->name) || !find_slot(kind->node, slot, &member->offset)) return false;
        if (is_same(member->name, (Word){"block", 5})) kind->block = member->offset;
    }
    if (kind->role != STRING || kind->block) return true;
    PyErr_SetString(PyExc_TypeError, "a string has no attribute block");
    return false;
}

PyDoc_STRVAR(setup_doc, "setup(operations, scan_string, loc, start, source, kinds)\n--\n\n"
"Takes what `document` needs: the operation types by name, json.decoder.scanstring, the slots of nodes and locations, and for\n"
"each kind of node its name, its class, that of its locations, and pairs of a member of the JSON and a slot. To be called\n"
"once. A TypeError says that the classes don't keep their attributes in slots.");

static PyObject *setup(PyObject *module, PyObject *given) {
    Forms *forms = PyModule_GetState(module);
    PyObject *loc, *start, *source, *kinds;
    if (forms->given) {
        PyErr_SetString(PyExc_TypeError, "a second call");
        return NULL;
    }
    if (!PyArg_ParseTuple(given, "O!OOOOO!:setup", &PyDict_Type, &forms->operations, &forms->scan_string, &loc, &start, &source,
                          &PyTuple_Type, &kinds)) return NULL;
    if (PyTuple_GET_SIZE(kinds) > MOST_KINDS) {
        PyErr_SetString(PyExc_TypeError, "too many kinds of nodes");
        return NULL;
    }
    for (Py_ssize_t at = 0; at < PyTuple_GET_SIZE(kinds); at++) {
        Kind *kind = &forms->kinds[at];
        *kind = (Kind){.role = PLAIN};
        if (!take_kind(kind, PyTuple_GET_ITEM(kinds, at)) || !find_slot(kind->node, loc, &forms->loc)) return NULL;
        if (!find_slot(kind->location, start, &forms->start) || !find_slot(kind->location, source, &forms->source)) return NULL;
    }
    forms->kind_count = (size_t)PyTuple_GET_SIZE(kinds);
    Py_INCREF(given);
    forms->given = given;
    Py_RETURN_NONE;
}

static int traverse(PyObject *module, visitproc visit, void *arg) {
    Forms *forms = PyModule_GetState(module);
    if (forms) Py_VISIT(forms->given);
    return 0;
}

static int clear(PyObject *module) {
    Forms *forms = PyModule_GetState(module);
    if (!forms) return 0;
    forms->kind_count = 0;
    Py_CLEAR(forms->given);
    return 0;
}

static PyMethodDef METHODS[] = {
    {"document", document, METH_VARARGS, document_doc},
    {"setup", setup, METH_VARARGS, setup_doc},
    {NULL, NULL, 0, NULL},
};

static PyModuleDef_Slot SLOTS[] = {{0, NULL}};

static PyModuleDef MODULE = {
    PyModuleDef_HEAD_INIT,
    .m_name = "graphql_parser._nodes_c",
    .m_doc = "Makes graphql-core's nodes of the library's JSON.",
    .m_size = sizeof(Forms),
    .m_methods = METHODS,
    .m_slots = SLOTS,
    .m_traverse = traverse,
    .m_clear = clear,
};

PyMODINIT_FUNC PyInit__nodes_c(void) {
    return PyModuleDef_Init(&MODULE);
}
