"""Where the documents put the fields of 0061 and 0071: the places that 000 prints in its Tables 21 to 26 and 35, and that 004 prints
too, as data.

Everything else here writes a frame row behind row, so that a field that is too wide moves all behind it. A frame that is put
together of these places shows it."""

LENGTHS = {1: 231, 2: 385, 3: 419, 4: 500, 5: 506, 6: 526}  # 000:1919
ALARM_LENGTH = 53  # 000:2413
ZEROS, NM = b"0", b"1"  # what fills the fields that the tool does not report, and the torque's unit

# A field's number, the byte at which the number begins, those at which its value begins and ends, and what the value is.
FIRST = (
    (1, 21, 23, 26, "cell"), (2, 27, 29, 30, "channel"), (3, 31, 33, 57, "name"), (4, 58, 60, 84, "identifier"),
    (5, 85, 87, 88, "job"), (6, 89, 91, 93, "parameter_set"), (7, 94, 96, 99, "batch_size"), (8, 100, 102, 105, "batch_counter"),
    (9, 106, 108, 108, "tightening_status"), (10, 109, 111, 111, "torque_status"), (11, 112, 114, 114, "angle_status"),
    (12, 115, 117, 122, "torque_min"), (13, 123, 125, 130, "torque_max"), (14, 131, 133, 138, "torque_target"),
    (15, 139, 141, 146, "torque"), (16, 147, 149, 153, "angle_min"), (17, 154, 156, 160, "angle_max"),
    (18, 161, 163, 167, "angle_target"), (19, 168, 170, 174, "angle"), (20, 175, 177, 195, "time"), (21, 196, 198, 216, "change_time"),
    (22, 217, 219, 219, "batch_status"), (23, 220, 222, 231, "number"),  # revision 1
)
LATER = (
    (1, 21, 23, 26, "cell"), (2, 27, 29, 30, "channel"), (3, 31, 33, 57, "name"), (4, 58, 60, 84, "identifier"),
    (5, 85, 87, 90, "job"), (6, 91, 93, 95, "parameter_set"), (7, 96, 98, 99, ZEROS), (8, 100, 102, 106, ZEROS),
    (9, 107, 109, 112, "batch_size"), (10, 113, 115, 118, "batch_counter"), (11, 119, 121, 121, "tightening_status"),
    (12, 122, 124, 124, "batch_status"), (13, 125, 127, 127, "torque_status"), (14, 128, 130, 130, "angle_status"),
    (15, 131, 133, 133, ZEROS), (16, 134, 136, 136, ZEROS), (17, 137, 139, 139, ZEROS), (18, 140, 142, 142, ZEROS),
    (19, 143, 145, 145, ZEROS), (20, 146, 148, 157, ZEROS), (21, 158, 160, 165, "torque_min"), (22, 166, 168, 173, "torque_max"),
    (23, 174, 176, 181, "torque_target"), (24, 182, 184, 189, "torque"), (25, 190, 192, 196, "angle_min"),
    (26, 197, 199, 203, "angle_max"), (27, 204, 206, 210, "angle_target"), (28, 211, 213, 217, "angle"), (29, 218, 220, 224, ZEROS),
    (30, 225, 227, 231, ZEROS), (31, 232, 234, 238, ZEROS), (32, 239, 241, 243, ZEROS), (33, 244, 246, 248, ZEROS),
    (34, 249, 251, 253, ZEROS), (35, 254, 256, 261, ZEROS), (36, 262, 264, 269, ZEROS), (37, 270, 272, 277, ZEROS),
    (38, 278, 280, 285, ZEROS), (39, 286, 288, 293, ZEROS), (40, 294, 296, 301, ZEROS), (41, 302, 304, 313, "number"),
    (42, 314, 316, 320, ZEROS), (43, 321, 323, 327, ZEROS), (44, 328, 330, 343, ZEROS), (45, 344, 346, 364, "time"),
    (46, 365, 367, 385, "change_time"),  # revision 2
    (47, 386, 388, 412, ZEROS), (48, 413, 415, 415, NM), (49, 416, 418, 419, ZEROS),  # revision 3
    (50, 420, 422, 446, ZEROS), (51, 447, 449, 473, ZEROS), (52, 474, 476, 500, ZEROS),  # revision 4
    (53, 501, 503, 506, ZEROS),  # revision 5
    (54, 507, 509, 514, ZEROS), (55, 515, 517, 526, ZEROS),  # revision 6
)


# 000, Table 35.
ALARM = ((1, 21, 23, 26, "code"), (2, 27, 29, 29, "controller_ready"), (3, 30, 32, 32, "tool_ready"), (4, 33, 35, 53, "time"))


def written(what, width, values):
    """The value of that name, or what fills the field; a limit that is none is spaces (02, P6)."""
    if what in (ZEROS, NM):
        return what * width
    if values[what] is None:
        return b" " * width
    return b"%0*d" % (width, values[what]) if isinstance(values[what], int) else values[what].ljust(width)


def put_together(begun, length, fields, values):
    """A frame that begins so, of that length, with these fields and values. Each byte belongs to one field."""
    made = bytearray(b"%04d" % length + begun + b" " * 8 + bytes(length - 20))
    for number, number_at, first, last, what in fields:
        for begin, text in ((number_at, b"%02d" % number), (first, written(what, last - first + 1, values))):
            place = slice(begin - 1, begin - 1 + len(text))
            if any(made[place]):
                raise ValueError("two fields at byte %d of %s" % (begin, begun))
            made[place] = text
    if 0 in made or len(made) != length:
        raise ValueError("a byte of %s that no field has, or one too many" % begun)
    return bytes(made)


def result(revision, byte_12, values):
    """The 0061 of that revision with these values, by the names of house_records.py, and `number`."""
    fields = FIRST if revision == 1 else [field for field in LATER if field[3] <= LENGTHS[revision]]
    return put_together(b"0061%03d" % revision + byte_12, LENGTHS[revision], fields, values)


def alarm(byte_12, values):
    """The 0071 with these values."""
    return put_together(b"0071001" + byte_12, ALARM_LENGTH, ALARM, values)
