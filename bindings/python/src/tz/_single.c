/*
 * The single calls of ZoneInfo over tz.h: utcoffset, tzname, dst and fromutc, as _zone.py has them.
 *
 * A zone keeps spans of time in which its clock has one type. What is not answered here, such as
 * what is no datetime and each error, the methods of _zone.py answer. The interpreter's lock is
 * held throughout.
 */
#include <Python.h>
#include <datetime.h>
#include <stdbool.h>
#include <stddef.h>
#include <stdint.h>
#include <structmember.h>

#include "tz.h"

enum { UTCOFFSET, TZNAME, DST, FROMUTC, METHODS };

typedef tz_code (*segment_at_call)(const tz_zone *, int64_t, tz_segment *);
typedef tz_code (*find_n_call)(const tz_fields *, const tz_zone *, size_t, tz_found *, size_t,
                               size_t *);

/* The same in each interpreter. */
static segment_at_call segment_at;
static find_n_call find_n;
static Py_ssize_t kept_offset; /* of the slot `_kept` in a ZoneInfo */

/* A span of instants in which a clock has one type. */
typedef struct {
  size_t references;
  int64_t first, last;
  PyObject *offset, *name;
  PyObject *saving; /* null until dst() is asked for it */
} span;

/* Two spans for each 2^23 seconds, some 97 days, and for each first instant one. */
enum { SPAN_BITS = 23, PLACE_BITS = 9, PLACES = 1 << PLACE_BITS };
typedef struct {
  span *near[PLACES][2];
  span *by_first[PLACES];
} spans;

/* What a ZoneInfo keeps for these calls. */
typedef struct {
  PyObject_HEAD
  const tz_zone *zone;
  PyObject *owner;   /* of the memory of the zone */
  PyObject *methods; /* those of _zone.py, in the order above */
  spans *spans;      /* null until the first call */
} kept;

static PyObject *new_reference(PyObject *object) {
  Py_INCREF(object);
  return object;
}

static void release(span *old) {
  if (old && --old->references == 0) {
    Py_XDECREF(old->offset);
    Py_XDECREF(old->name);
    Py_XDECREF(old->saving);
    PyMem_Free(old);
  }
}

static span *new_span(const tz_segment *segment) {
  const tz_local_time_type *type = &segment->local_time_type;
  span *made = PyMem_Calloc(1, sizeof *made);
  if (!made) {
    PyErr_NoMemory();
    return NULL;
  }
  made->references = 1;
  made->first = segment->from;
  made->last = segment->last;
  made->offset = PyDelta_FromDSU(0, type->ut_offset, 0);
  if (type->designation_length) {
    made->name = PyUnicode_FromStringAndSize(type->designation, type->designation_length);
  } else {
    made->name = new_reference(Py_None);
  }
  if (!made->offset || !made->name) {
    release(made);
    return NULL;
  }
  return made;
}

static span **near(const kept *self, int64_t seconds) {
  return self->spans->near[(uint64_t)seconds >> SPAN_BITS & (PLACES - 1)];
}

static void keep(span *places[2], span *value) {
  if (places[0] == value) return;
  span *old = places[1];
  value->references++;
  places[1] = places[0];
  places[0] = value;
  release(old); /* It may be the value. */
}

/* The span around an instant, which is kept until another call; null without an exception if there
   is none. */
static span *span_at(kept *self, int64_t instant) {
  span **places = near(self, instant);
  for (int i = 0; i < 2; i++) {
    span *known = places[i];
    if (known && known->first <= instant && instant <= known->last) return known;
  }
  tz_segment segment = {0};
  if (segment_at(self->zone, instant, &segment) != TZ_OK || !segment.has_type) return NULL;
  uint64_t hash = (uint64_t)segment.from * 0x9E3779B97F4A7C15u >> (64 - PLACE_BITS);
  span **place = &self->spans->by_first[hash];
  if (!*place || (*place)->first != segment.from) {
    span *made = new_span(&segment);
    if (!made) return NULL;
    release(*place);
    *place = made;
  }
  keep(places, *place);
  return *place;
}

/* The days from 1970-01-01 to a date of the years 1 to 9999. */
static int64_t days_from_epoch(int year, int month, int day) {
  int from_march = month > 2 ? month - 3 : month + 9;
  int64_t years = month > 2 ? year : year - 1;
  int64_t days = years * 365 + years / 4 - years / 100 + years / 400;
  return days + (153 * from_march + 2) / 5 + day - 719469;
}

/* Reads a datetime, and returns its seconds from 1970-01-01 00:00:00. */
static int64_t read_fields(PyObject *dt, tz_fields *fields) {
  fields->year = PyDateTime_GET_YEAR(dt);
  fields->month = PyDateTime_GET_MONTH(dt);
  fields->month_day = PyDateTime_GET_DAY(dt);
  fields->hour = PyDateTime_DATE_GET_HOUR(dt);
  fields->minute = PyDateTime_DATE_GET_MINUTE(dt);
  fields->second = PyDateTime_DATE_GET_SECOND(dt);
  fields->nanoseconds = 0;
  int64_t days = days_from_epoch(fields->year, fields->month, fields->month_day);
  return days * 86400 + fields->hour * 3600 + fields->minute * 60 + fields->second;
}

/* What a local time means, if that is one or two; else 0. */
static size_t find(const kept *self, const tz_fields *fields, tz_found found[2]) {
  size_t count = 0;
  if (find_n(fields, self->zone, 0, found, 2, &count) != TZ_OK || count > 2) return 0;
  return count;
}

/* The span in which a local time lies, or of the side of a gap that its fold says; null without an
   exception if the method in Python is to answer. */
static span *shown(kept *self, PyObject *dt) {
  if (!PyDateTime_Check(dt)) return NULL;
  tz_fields fields;
  int64_t seconds = read_fields(dt, &fields);
  /* Wherever clocks show or skip this local time, they are between these two instants. */
  const tz_offsets *offsets = &self->zone->offsets;
  int64_t first = seconds - offsets->greatest, last = seconds - offsets->least;
  span **places = near(self, seconds);
  for (int i = 0; i < 2; i++) {
    span *known = places[i];
    if (known && known->first < first && last <= known->last) return known;
  }
  tz_found found[2] = {{0}};
  size_t count = find(self, &fields, found);
  if (count == 0) return NULL;
  bool is_second = PyDateTime_DATE_GET_FOLD(dt);
  const tz_found *chosen = &found[is_second ? count - 1 : 0];
  const tz_found *other = &found[is_second ? 0 : count - 1];
  if (chosen->is_skipped && !other->is_skipped) chosen = other;
  int64_t instant = chosen->before.unix_time;
  if (chosen->is_skipped) instant = is_second ? chosen->after.unix_time : instant - 1;
  span *there = span_at(self, instant);
  if (there) keep(places, there);
  return there;
}

/* What a ZoneInfo keeps, with room for spans. */
static kept *kept_of(PyObject *zone) {
  kept *self = *(kept **)((char *)zone + kept_offset);
  if (!self) {
    PyErr_SetString(PyExc_AttributeError, "_kept");
    return NULL;
  }
  if (!self->spans && !(self->spans = PyMem_Calloc(1, sizeof *self->spans))) {
    PyErr_NoMemory();
    return NULL;
  }
  return self;
}

static PyObject *in_python(kept *self, int method, PyObject *zone, PyObject *dt) {
  if (PyErr_Occurred()) return NULL;
  PyObject *call = new_reference(PyTuple_GET_ITEM(self->methods, method));
  PyObject *answer = PyObject_CallFunctionObjArgs(call, zone, dt, NULL);
  Py_DECREF(call);
  return answer;
}

static PyObject *zone_utcoffset(PyObject *zone, PyObject *dt) {
  kept *self = kept_of(zone);
  if (!self) return NULL;
  span *there = shown(self, dt);
  return there ? new_reference(there->offset) : in_python(self, UTCOFFSET, zone, dt);
}

static PyObject *zone_tzname(PyObject *zone, PyObject *dt) {
  kept *self = kept_of(zone);
  if (!self) return NULL;
  span *there = shown(self, dt);
  return there ? new_reference(there->name) : in_python(self, TZNAME, zone, dt);
}

static PyObject *zone_dst(PyObject *zone, PyObject *dt) {
  kept *self = kept_of(zone);
  if (!self) return NULL;
  span *there = shown(self, dt);
  if (there && there->saving) return new_reference(there->saving);
  if (there) there->references++;
  PyObject *saving = in_python(self, DST, zone, dt);
  if (there) {
    if (saving && !there->saving) there->saving = new_reference(saving);
    release(there);
  }
  return saving;
}

static PyObject *local_time(kept *self, PyObject *zone, PyObject *dt) {
  if (!PyDateTime_Check(dt)) return in_python(self, FROMUTC, zone, dt);
  PyDateTime_DateTime *utc = (PyDateTime_DateTime *)dt;
  if (!utc->hastzinfo || utc->tzinfo != zone) return in_python(self, FROMUTC, zone, dt);
  tz_fields fields;
  int64_t instant = read_fields(dt, &fields);
  span *there = span_at(self, instant);
  if (!there) return in_python(self, FROMUTC, zone, dt);
  /* The sum of a class of its own may call the zone, and so change what is kept. */
  int64_t first = there->first;
  PyObject *offset = new_reference(there->offset);
  PyObject *local = PyNumber_Add(dt, offset);
  Py_DECREF(offset);
  /* Clocks may show the same twice only as far apart as their offsets differ. */
  const tz_offsets *offsets = &self->zone->offsets;
  if (!local || first <= instant - ((int64_t)offsets->greatest - offsets->least)) return local;
  tz_found found[2] = {{0}};
  size_t count = 0;
  if (PyDateTime_CheckExact(local)) {
    read_fields(local, &fields);
    count = find(self, &fields, found);
  }
  const tz_found *earliest = &found[count == 2 && found[0].is_skipped];
  if (count == 0 || earliest->is_skipped) {
    Py_DECREF(local);
    return in_python(self, FROMUTC, zone, dt);
  }
  if (earliest->before.unix_time < instant) ((PyDateTime_DateTime *)local)->fold = 1;
  return local;
}

static PyObject *zone_fromutc(PyObject *zone, PyObject *dt) {
  kept *self = kept_of(zone);
  if (!self) return NULL;
  Py_INCREF(self);
  PyObject *local = local_time(self, zone, dt);
  Py_DECREF(self);
  return local;
}

static PyMethodDef single_calls[METHODS] = {
    {"utcoffset", zone_utcoffset, METH_O,
     "What is added to UTC. None for None, unless clocks never change."},
    {"tzname", zone_tzname, METH_O,
     "The abbreviation, such as CEST. None as for utcoffset, and if it has none."},
    {"dst", zone_dst, METH_O,
     "How far clocks are ahead of standard time: zero exactly in standard time."},
    {"fromutc", zone_fromutc, METH_O,
     "The local time of a date and time of UTC whose tzinfo is this zone."},
};

static void kept_dealloc(PyObject *object) {
  kept *self = (kept *)object;
  if (self->spans) {
    for (int place = 0; place < PLACES; place++) {
      release(self->spans->near[place][0]);
      release(self->spans->near[place][1]);
      release(self->spans->by_first[place]);
    }
    PyMem_Free(self->spans);
  }
  Py_XDECREF(self->owner);
  Py_XDECREF(self->methods);
  PyObject_Free(self);
}

static PyTypeObject kept_type = {
    PyVarObject_HEAD_INIT(NULL, 0)
    .tp_name = "tz._single.Kept",
    .tp_basicsize = sizeof(kept),
    .tp_dealloc = kept_dealloc,
    .tp_flags = Py_TPFLAGS_DEFAULT,
};

static PyObject *new_kept(PyObject *module, PyObject *arguments) {
  PyObject *address, *owner, *methods;
  (void)module;
  if (!PyArg_ParseTuple(arguments, "OOO!", &address, &owner, &PyTuple_Type, &methods)) return NULL;
  const tz_zone *zone = PyLong_AsVoidPtr(address);
  if (!zone) return PyErr_Occurred() ? NULL : PyErr_Format(PyExc_ValueError, "no address");
  if (PyTuple_GET_SIZE(methods) != METHODS) return PyErr_Format(PyExc_ValueError, "methods");
  kept *self = PyObject_New(kept, &kept_type);
  if (!self) return NULL;
  self->zone = zone;
  self->owner = new_reference(owner);
  self->methods = new_reference(methods);
  self->spans = NULL;
  return (PyObject *)self;
}

/* Puts the calls in the place of a class's methods, which it returns. */
static PyObject *replace_methods(PyObject *module, PyObject *arguments) {
  PyObject *type, *segment_at_address, *find_n_address;
  (void)module;
  if (!PyArg_ParseTuple(arguments, "O!OO", &PyType_Type, &type, &segment_at_address,
                        &find_n_address)) {
    return NULL;
  }
  void *addresses[] = {PyLong_AsVoidPtr(segment_at_address), PyLong_AsVoidPtr(find_n_address)};
  if (PyErr_Occurred()) return NULL;
  if (!addresses[0] || !addresses[1]) return PyErr_Format(PyExc_ValueError, "no address");
  PyObject *slot = PyObject_GetAttrString(type, "_kept");
  if (!slot) return NULL;
  if (!Py_IS_TYPE(slot, &PyMemberDescr_Type)) {
    Py_DECREF(slot);
    return PyErr_Format(PyExc_TypeError, "_kept is no slot");
  }
  kept_offset = ((PyMemberDescrObject *)slot)->d_member->offset;
  Py_DECREF(slot);
  segment_at = (segment_at_call)(uintptr_t)addresses[0];
  find_n = (find_n_call)(uintptr_t)addresses[1];
  PyObject *methods = PyTuple_New(METHODS);
  for (int i = 0; methods && i < METHODS; i++) {
    PyObject *old = PyObject_GetAttrString(type, single_calls[i].ml_name);
    PyObject *call = PyDescr_NewMethod((PyTypeObject *)type, &single_calls[i]);
    if (old) PyTuple_SET_ITEM(methods, i, old);
    if (!old || !call || PyObject_SetAttrString(type, single_calls[i].ml_name, call)) {
      Py_CLEAR(methods);
    }
    Py_XDECREF(call);
  }
  return methods;
}

static PyMethodDef functions[] = {
    {"Kept", new_kept, METH_VARARGS, NULL},
    {"replace_methods", replace_methods, METH_VARARGS, NULL},
    {NULL, NULL, 0, NULL},
};

static int execute(PyObject *module) {
  PyDateTime_IMPORT;
  if (!PyDateTimeAPI || PyType_Ready(&kept_type)) return -1;
  return PyModule_AddIntConstant(module, "ABI", TZ_ABI);
}

static PyModuleDef_Slot module_slots[] = {{Py_mod_exec, execute}, {0, NULL}};
static struct PyModuleDef definition = {
    PyModuleDef_HEAD_INIT, .m_name = "_single", .m_methods = functions, .m_slots = module_slots,
};

PyMODINIT_FUNC PyInit__single(void) { return PyModuleDef_Init(&definition); }
