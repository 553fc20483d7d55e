#!/usr/bin/env python3
"""Document 01 with points 1, 2, 3, 4 and 6 of 02 as a simple whole-image program, held against crates/model's definitions.

    python3 tools/crosscheck.py [--cases N] [--seed S] [--keep]         from the repository's root

Part one of this file is the documents once more, in their own words and from nothing but their text: plain
loops over rows and columns, a breadth-first search for linked sets, a byte parser for jobs. It shares nothing with
crates/model. Part two makes random cases, works out each answer by part one, and writes each as a theorem
`expression = answer` that antt has to compute from the definitions. A case in which the two disagree is a
theorem that antt refuses.

A scratch repository in a temporary folder holds the theorems, since rt takes none within another. It is removed when
all agree, unless --keep.
Exit status: 0 all agree; 1 some case disagrees, or was not computed; 2 not run in a repository.
"""
import argparse
import pathlib
import random
import re
import shutil
import subprocess
import sys
import tempfile
from collections import Counter, deque, namedtuple

# ======================================================================================================
# PART ONE: DOCUMENT 01, WITH POINTS 1, 2, 3, 4 AND 6 OF DOCUMENT 02
#
# A picture is a list of rows, rows[y][x], 0 background and 1 object. Callers lend it as one flat list.
# ======================================================================================================

MOST_SIDE, MOST_PARTS, MOST_HOLES, MOST_STEPS = 256, 65535, 65535, 32
RECORD_LENGTH = 10
LANE_LIMIT = 8192       # pixels that the lane program takes
LANE_RECORDS = 1024     # records that it keeps
NO_LIMIT = 65536        # elsewhere: as many as a crop can have
BYTE, WORD = 8, 64      # bits: rows are padded to a byte in a job, and to a word in packed rows

ALL_SIDES = 15          # 1 top, 2 right, 4 bottom, 8 left, added

# The kinds of a step in hand.
Erode = namedtuple('Erode', 'linking surround steps')
ErodeBySides = namedtuple('ErodeBySides', 'linking sides steps')
Dilate = namedtuple('Dilate', 'linking steps')
Propagate = namedtuple('Propagate', 'linking steps')
Fill = namedtuple('Fill', 'linking x y')
Drop = namedtuple('Drop', 'linking')

REPEATED = (Erode, ErodeBySides, Dilate, Propagate)     # these take a step count

# ---- Crop, neighbours, edge

LEFT, RIGHT, ABOVE, BELOW = (-1, 0), (1, 0), (0, -1), (0, 1)
DIAGONALS = [(-1, -1), (1, -1), (-1, 1), (1, 1)]


def rows_of(width, pixels):
    """A flat list of pixels cut into rows."""
    return [pixels[start:start + width] for start in range(0, len(pixels), width)]


def flat(rows):
    """The rows of a picture or a map, one behind the other."""
    return [value for row in rows for value in row]


def places(rows):
    """Every (x, y) of the crop, row by row from the top."""
    return [(x, y) for y in range(len(rows)) for x in range(len(rows[0]))]


def drawn(rows, rule):
    """A picture or map of the same size, whose value at (x, y) is rule(x, y)."""
    return [[rule(x, y) for x in range(len(rows[0]))] for y in range(len(rows))]


def neighbours(x, y, linking):
    """The four or eight neighbours of (x, y), also those outside the crop."""
    directions = [LEFT, RIGHT, ABOVE, BELOW] + (DIAGONALS if linking == 8 else [])
    return [(x + dx, y + dy) for dx, dy in directions]


def inside(rows, x, y):
    """Whether (x, y) lies in the crop."""
    return 0 <= x < len(rows[0]) and 0 <= y < len(rows)


def on_edge(rows, x, y):
    """Whether (x, y) lies in the first or last row or column."""
    return x in (0, len(rows[0]) - 1) or y in (0, len(rows) - 1)


def touches(rows, x, y, linking, value, surround):
    """Whether (x, y) has a neighbour of this value, where the pixels outside have the surround's."""
    return any((rows[ny][nx] if inside(rows, nx, ny) else surround) == value for nx, ny in neighbours(x, y, linking))


def sides_beyond(rows, x, y):
    """The sides that (x, y) lies beyond, added; 0 inside the crop."""
    return 1 * (y < 0) + 2 * (x >= len(rows[0])) + 4 * (y >= len(rows)) + 8 * (x < 0)


def value_by_sides(rows, x, y, sides):
    """The value at (x, y), which outside the crop is object only if each side that it lies beyond counts as object."""
    beyond = sides_beyond(rows, x, y)
    return rows[y][x] if beyond == 0 else int(beyond & sides == beyond)


def linked_set(rows, x, y, linking):
    """All pixels linked to (x, y): those of its value that a path of neighbours of that value reaches."""
    found, waiting = {(x, y)}, deque([(x, y)])
    while waiting:
        for nx, ny in neighbours(*waiting.popleft(), linking):
            if inside(rows, nx, ny) and rows[ny][nx] == rows[y][x] and (nx, ny) not in found:
                found.add((nx, ny))
                waiting.append((nx, ny))
    return found


# ---- The operations


def erosion_step(rows, linking, surround):
    """An object pixel with a background neighbour becomes 0. Outside neighbours have the surround's value."""
    return drawn(rows, lambda x, y: 0 if rows[y][x] == 1 and touches(rows, x, y, linking, 0, surround) else rows[y][x])


def side_erosion_step(rows, linking, sides):
    """The same, but what an outside neighbour is depends on the sides that it lies beyond."""
    def goes(x, y):
        return any(value_by_sides(rows, nx, ny, sides) == 0 for nx, ny in neighbours(x, y, linking))
    return drawn(rows, lambda x, y: 0 if rows[y][x] == 1 and goes(x, y) else rows[y][x])


def dilation_step(rows, linking):
    """A background pixel with an object neighbour becomes 1. Outside neighbours are 0."""
    return drawn(rows, lambda x, y: 1 if rows[y][x] == 0 and touches(rows, x, y, linking, 1, 0) else rows[y][x])


def propagation_step(rows, linking, mask):
    """Dilation, then AND with the mask: a seed pixel outside the mask still spreads, then goes."""
    spread = dilation_step(rows, linking)
    return drawn(rows, lambda x, y: spread[y][x] & mask[y][x])


def fill(rows, linking, x, y):
    """If the chosen pixel is background, every background pixel linked to it becomes 1."""
    chosen = linked_set(rows, x, y, linking) if rows[y][x] == 0 else set()
    return drawn(rows, lambda x, y: 1 if (x, y) in chosen else rows[y][x])


def drop(rows, linking):
    """Every part with a pixel in the first or last row or column becomes 0."""
    def dropped(x, y):
        return rows[y][x] == 1 and any(on_edge(rows, *place) for place in linked_set(rows, x, y, linking))
    return drawn(rows, lambda x, y: 0 if dropped(x, y) else rows[y][x])


def one_step(rows, step, mask):
    """The picture after one step of an erosion, a dilation or a propagation."""
    if isinstance(step, Erode):
        return erosion_step(rows, step.linking, step.surround)
    if isinstance(step, ErodeBySides):
        return side_erosion_step(rows, step.linking, step.sides)
    if isinstance(step, Dilate):
        return dilation_step(rows, step.linking)
    return propagation_step(rows, step.linking, mask)


def performed(rows, step, mask):
    """The picture after an operation. 0 steps change nothing, and for propagation do not apply the mask."""
    if isinstance(step, Fill):
        return fill(rows, step.linking, step.x, step.y)
    if isinstance(step, Drop):
        return drop(rows, step.linking)
    for _ in range(step.steps):
        rows = one_step(rows, step, mask)
    return rows


def changed_pixels(before, after):
    """How many pixels differ before and after."""
    return sum(before[y][x] != after[y][x] for x, y in places(before))


def used_steps(before, after, step, mask):
    """The least step count that gives the same picture; for fill and drop 1 if anything changed, else 0."""
    if isinstance(step, (Fill, Drop)):
        return 1 if before != after else 0
    used = 0
    while before != after:
        before, used = one_step(before, step, mask), used + 1
    return used


# ---- The contour handed on


def contour(rows):
    """The positions of the object pixels with a background 4-neighbour inside the crop, row by row."""
    width = len(rows[0])
    return [y * width + x for x, y in places(rows) if rows[y][x] == 1 and touches(rows, x, y, 4, 0, 1)]


def blank_rows(rows):
    """How many rows have no object pixel."""
    return sum(1 not in row for row in rows)


def queue_with(positions, queue):
    """The lent queue with these positions at the front, zeros behind to its end."""
    return positions + [0] * (len(queue) - len(positions))


def stretch(length, queue):
    """The front of the queue that is handed to the caller; a length beyond the queue gets an empty one."""
    return queue[:length] if length <= len(queue) else []


# ---- Parts, holes, depth


def whole_sets(rows, value, linking):
    """The whole linked sets of this value, in the order of their first pixels."""
    sets, seen = [], set()
    for x, y in places(rows):
        if rows[y][x] == value and (x, y) not in seen:
            sets.append(linked_set(rows, x, y, linking))
            seen |= sets[-1]
    return sets


def parts_of(rows, linking):
    """The whole linked sets of object pixels."""
    return whole_sets(rows, 1, linking)


def holes_of(rows, linking):
    """The whole sets of background pixels, linked the other way, with no pixel in the first or last row or column."""
    other = 8 if linking == 4 else 4
    return [hole for hole in whole_sets(rows, 0, other) if not any(on_edge(rows, x, y) for x, y in hole)]


def number_map(rows, sets):
    """The map that holds n at the pixels of the n-th set, counted from 1, and 0 elsewhere."""
    return drawn(rows, lambda x, y: sum(n for n, pixels in enumerate(sets, 1) if (x, y) in pixels))


def first_pixel(pixels):
    """The pixel of a set that a scan row by row meets first."""
    return min(pixels, key=lambda place: (place[1], place[0]))


def hole_enclosing(hole, part_map):
    """The part that encloses a hole: it holds the pixel left of the hole's first pixel."""
    x, y = first_pixel(hole)
    return part_map[y][x - 1]


def part_enclosing(part, holes, part_map):
    """The part that encloses a part: that of the hole holding the pixel left of its first pixel, else 0."""
    x, y = first_pixel(part)
    around = [hole for hole in holes if (x - 1, y) in hole]
    return hole_enclosing(around[0], part_map) if around else 0


def part_records(parts, holes, part_map):
    """Ten numbers a part: number, first x and y, area, box, holes that it encloses, enclosing part."""
    records = []
    for number, part in enumerate(parts, 1):
        columns, lines = [x for x, y in part], [y for x, y in part]
        records += [number, *first_pixel(part), len(part), min(columns), min(lines), max(columns), max(lines),
                    sum(hole_enclosing(hole, part_map) == number for hole in holes), part_enclosing(part, holes, part_map)]
    return records


def depth(records, part):
    """One more than the enclosing part's depth; 0 without one. An enclosing number not below counts as none."""
    if part == 0 or RECORD_LENGTH * part > len(records):
        return 0
    enclosing = records[RECORD_LENGTH * part - 1]
    return 1 + depth(records, enclosing) if 0 < enclosing < part else 0


# ---- Refused, by place


class Refused(Exception):
    """A refusal of the table, with its number."""
    def __init__(self, number):
        super().__init__(number)
        self.number = number


def refuse(number, condition):
    """Refuses with this number where the condition holds."""
    if condition:
        raise Refused(number)


def check_size(width, height):
    """1: width or height outside 1 to 256."""
    refuse(1, not (1 <= width <= MOST_SIDE and 1 <= height <= MOST_SIDE))


def check_lengths(needed, *buffers):
    """2: a picture, mask, map or buffer of another length than needed."""
    refuse(2, any(len(buffer) != needed for buffer in buffers))


def check_queue(needed, queue):
    """3: a queue under width x height entries."""
    refuse(3, len(queue) < needed)


def check_pixels(*pictures):
    """4: a pixel byte above 1 in a picture or a mask."""
    refuse(4, any(pixel > 1 for pixels in pictures for pixel in pixels))


def check_linking(linking):
    """5: a linking other than 4 and 8."""
    refuse(5, linking not in (4, 8))


def check_step(width, height, step):
    """5 as above; 6: a surround above 1, or a side number above 15; 7: a fill position outside the crop."""
    check_linking(step.linking)
    refuse(6, isinstance(step, Erode) and step.surround > 1)
    refuse(6, isinstance(step, ErodeBySides) and step.sides > ALL_SIDES)
    refuse(7, isinstance(step, Fill) and not (step.x < width and step.y < height))


def check_contour(rows, queue, length):
    """8: a contour handed in that is longer than the queue, or not exactly the contour, in some order."""
    refuse(8, length > len(queue) or sorted(queue[:length]) != contour(rows))


def check_numbering(part_count, hole_count, records):
    """9: over 65,535 parts; 10: over 65,535 holes; no crop has so many. 11: under ten record entries a part."""
    refuse(9, part_count > MOST_PARTS)
    refuse(10, hole_count > MOST_HOLES)
    refuse(11, len(records) < RECORD_LENGTH * part_count)


# ---- Packed pictures: in bytes within a job, in words of 64 bits from the lane camera


def packed(width, pixels, unit):
    """A packed picture: rows padded to a whole unit of bits with zeros, first pixel in the top bit."""
    data = []
    for row in rows_of(width, pixels):
        bits = ''.join(map(str, row))
        bits += '0' * (-len(bits) % unit)
        data += [int(bits[start:start + unit], 2) for start in range(0, len(bits), unit)]
    return data


def row_bits(width, data, unit):
    """The rows of a packed picture as bits, with their padding."""
    units = -(-width // unit)
    rows = [data[start:start + units] for start in range(0, len(data), units)]
    return [[int(bit) for each in row for bit in format(each, '0%db' % unit)] for row in rows]


def unpacked(width, data, unit):
    """The pixels of a packed picture, without the padding."""
    return [bit for row in row_bits(width, data, unit) for bit in row[:width]]


def word_count(width, height):
    """How many words packed rows take: each row starts a word."""
    return height * -(-width // WORD)


def check_unused_bits(width, words):
    """18: an unused bit of a row's last word is set."""
    refuse(18, any(bit == 1 for row in row_bits(width, words, WORD) for bit in row[width:]))


# What an operation on packed rows answers, and the words as it leaves them.
OperatedWords = namedtuple('OperatedWords', 'number changed used area words')


def operate_words(width, height, step, words):
    """Erosion, erosion by sides or dilation of packed rows: 1, 2, 18 in place of 3 and 4, then 5 and 6."""
    try:
        check_size(width, height)
        check_lengths(word_count(width, height), words)
        check_unused_bits(width, words)
        check_step(width, height, step)
    except Refused as refusal:
        return OperatedWords(refusal.number, 0, 0, 0, words)
    before = rows_of(width, unpacked(width, words, WORD))
    after = performed(before, step, [])
    changed, used = changed_pixels(before, after), used_steps(before, after, step, [])
    return OperatedWords(0, changed, used, sum(flat(after)), packed(width, flat(after), WORD))


# What packing or unpacking answers, and both buffers as it leaves them.
Repacked = namedtuple('Repacked', 'number picture words')


def check_repacking(width, height, picture, words):
    """1 and 2 of a picture in bytes and of packed rows."""
    check_size(width, height)
    check_lengths(width * height, picture)
    check_lengths(word_count(width, height), words)


def pack_words(width, height, picture, words):
    """Packing a picture into lent words."""
    try:
        check_repacking(width, height, picture, words)
        check_pixels(picture)
    except Refused as refusal:
        return Repacked(refusal.number, picture, words)
    return Repacked(0, picture, packed(width, picture, WORD))


def unpack_words(width, height, picture, words):
    """Unpacking words into a lent picture."""
    try:
        check_repacking(width, height, picture, words)
        check_unused_bits(width, words)
    except Refused as refusal:
        return Repacked(refusal.number, picture, words)
    return Repacked(0, unpacked(width, words, WORD), words)


# ---- Maps of byte numbers carried over


def widen_map(width, height, byte_map, labels):
    """Each pixel keeps its number. Gives the table's number or 0, and the two lent maps as they are left."""
    try:
        check_size(width, height)
        check_lengths(width * height, byte_map, labels)
    except Refused as refusal:
        return refusal.number, byte_map, labels
    return 0, byte_map, byte_map


# ---- The plain book: a picture and a queue, one call after the other

State = namedtuple('State', 'picture queue')

# The calls. An operation starts by a sweep or from a contour of some length at the queue's front.
Operate = namedtuple('Operate', 'step mask start')
Number = namedtuple('Number', 'linking part_map hole_map records')
Sweep = namedtuple('Sweep', '')
BySweep = namedtuple('BySweep', '')
FromContour = namedtuple('FromContour', 'length')

# What they answer: the table's number, or 0, then counts; maps and records as they are left.
Operated = namedtuple('Operated', 'number changed used contour_length')
Swept = namedtuple('Swept', 'number contour_length blank_rows')
Numbered = namedtuple('Numbered', 'number parts holes part_map hole_map records')


def operated(width, height, state, call):
    """An operation: its reply, and the picture and queue after it."""
    try:
        masks = [call.mask] if isinstance(call.step, Propagate) else []
        check_size(width, height)
        check_lengths(width * height, state.picture, *masks)
        check_queue(width * height, state.queue)
        check_pixels(state.picture, *masks)
        check_step(width, height, call.step)
        before = rows_of(width, state.picture)
        if isinstance(call.start, FromContour):
            check_contour(before, state.queue, call.start.length)
    except Refused as refusal:
        return Operated(refusal.number, 0, 0, 0), state
    mask = rows_of(width, call.mask)
    after = performed(before, call.step, mask)
    reply = Operated(0, changed_pixels(before, after), used_steps(before, after, call.step, mask), len(contour(after)))
    return reply, State(flat(after), queue_with(contour(after), state.queue))


def swept(width, height, state):
    """A sweep by itself: the contour of the picture as it is, and how many rows it passed over."""
    try:
        check_size(width, height)
        check_lengths(width * height, state.picture)
        check_queue(width * height, state.queue)
        check_pixels(state.picture)
    except Refused as refusal:
        return Swept(refusal.number, 0, 0), state
    rows = rows_of(width, state.picture)
    found = contour(rows)
    return Swept(0, len(found), blank_rows(rows)), State(state.picture, queue_with(found, state.queue))


def numbered(width, height, state, call):
    """Numbering: its reply with both maps and the records, and the state with the workspace as it is left."""
    try:
        check_size(width, height)
        check_lengths(width * height, state.picture, call.part_map, call.hole_map)
        check_queue(width * height, state.queue)
        check_pixels(state.picture)
        check_linking(call.linking)
    except Refused as refusal:
        return Numbered(refusal.number, 0, 0, call.part_map, call.hole_map, call.records), state
    rows, zeros = rows_of(width, state.picture), [0] * (width * height)
    parts, holes = parts_of(rows, call.linking), holes_of(rows, call.linking)
    cleared = State(state.picture, queue_with([], state.queue))
    try:
        check_numbering(len(parts), len(holes), call.records)
    except Refused as refusal:
        return Numbered(refusal.number, 0, 0, zeros, zeros, call.records), cleared
    part_map, hole_map = number_map(rows, parts), number_map(rows, holes)
    records = part_records(parts, holes, part_map)
    return Numbered(0, len(parts), len(holes), flat(part_map), flat(hole_map), records + call.records[len(records):]), cleared


def answered(width, height, state, call):
    """The reply to any call, and the picture and queue after it."""
    if isinstance(call, Operate):
        return operated(width, height, state, call)
    if isinstance(call, Sweep):
        return swept(width, height, state)
    return numbered(width, height, state, call)


def answered_all(width, height, state, calls):
    """The replies to a list of calls, and the picture and queue after the last."""
    replies = []
    for call in calls:
        reply, state = answered(width, height, state, call)
        replies.append(reply)
    return replies, state


# ---- Jobs

Job = namedtuple('Job', 'width height steps picture mask')

# kind byte: the operation, the length byte (bytes after it), and how many bytes each field has
KINDS = {
    1: (Erode, 5, [1, 1, 2]),
    2: (Dilate, 4, [1, 2]),
    3: (Propagate, 4, [1, 2]),
    4: (Fill, 6, [1, 2, 2]),
    5: (Drop, 2, [1]),
    7: (ErodeBySides, 5, [1, 1, 2]),
}


def kind_of(step):
    """The kind byte of a step."""
    return next(kind for kind, (operation, _, _) in KINDS.items() if isinstance(step, operation))


def step_record(step):
    """The bytes of a step record: length byte, kind byte, fields, big-endian."""
    _, length, sizes = KINDS[kind_of(step)]
    data = [length, kind_of(step)]
    for size, value in zip(sizes, step):
        data += value.to_bytes(size, 'big')
    return data


def job_length(job):
    """How many bytes a job takes: head, step records, two packed pictures."""
    records = sum(1 + KINDS[kind_of(step)][1] for step in job.steps)
    return 8 + records + 2 * job.height * ((job.width + 7) // 8)


def job_bytes(job):
    """The bytes of a job."""
    records = [byte for step in job.steps for byte in step_record(step)]
    body = records + packed(job.width, job.picture, BYTE) + packed(job.width, job.mask, BYTE)
    fields = job_length(job).to_bytes(2, 'big') + job.width.to_bytes(2, 'big') + job.height.to_bytes(2, 'big')
    return [1, *fields, len(job.steps), *body]


def check_steps_in_hand(width, height, steps):
    """The rows 'job head' and 'each step' of the table, where the steps are in hand: 1, 15, then 5, 6, 7."""
    check_size(width, height)
    refuse(15, len(steps) > MOST_STEPS)
    for step in steps:
        check_step(width, height, step)


def write_job(job, buffer):
    """Writing a job into a lent buffer: the table's number or 0, and the buffer as it is left."""
    try:
        check_steps_in_hand(job.width, job.height, job.steps)
        check_lengths(job.width * job.height, job.picture, job.mask)
        check_lengths(job_length(job), buffer)
        check_pixels(job.picture, job.mask)
    except Refused as refusal:
        return refusal.number, buffer
    return 0, job_bytes(job)


def read_step(data, at, width, height):
    """The step whose record begins at byte `at`, and where the next begins."""
    refuse(13, at >= len(data))
    length = data[at]
    after = at + 1 + length
    refuse(13, after > len(data))
    refuse(14, length == 0)
    kind = data[at + 1]
    refuse(14, kind not in KINDS or length != KINDS[kind][1])
    operation, _, sizes = KINDS[kind]
    fields, at = [], at + 2
    for size in sizes:
        fields.append(int.from_bytes(data[at:at + size], 'big'))
        at += size
    step = operation(*fields)
    check_step(width, height, step)
    return step, after


def read_job(limit, data):
    """The job that these bytes hold, or Refused. The limit, in pixels, is the program's."""
    refuse(12, not data or data[0] != 1)
    refuse(13, len(data) < 8 or int.from_bytes(data[1:3], 'big') != len(data))
    width, height = int.from_bytes(data[3:5], 'big'), int.from_bytes(data[5:7], 'big')
    check_size(width, height)
    refuse(17, width * height > limit)
    refuse(15, data[7] > MOST_STEPS)
    steps, at = [], 8
    for _ in range(data[7]):
        step, at = read_step(data, at, width, height)
        steps.append(step)
    size = height * ((width + 7) // 8)
    refuse(13, len(data) - at != 2 * size)
    refuse(16, any(bit == 1 for row in row_bits(width, data[at:], BYTE) for bit in row[width:]))
    pixels = unpacked(width, data[at:], BYTE)
    return Job(width, height, steps, pixels[:width * height], pixels[width * height:])


def unpack_job(limit, data, picture, mask):
    """Reading a job into a lent picture and mask: the table's number or 0, and both as they are left."""
    try:
        job = read_job(limit, data)
        check_lengths(job.width * job.height, picture, mask)
    except Refused as refusal:
        return refusal.number, picture, mask
    return 0, job.picture, job.mask


# ---- Running a job, and the lane program

Ran = namedtuple('Ran', 'number replies contour_length picture mask queue')


def run(width, height, steps, mask, state):
    """The run of an accepted list: a sweep, then each step from the contour that the one before left."""
    reply, state = swept(width, height, state)
    replies = []
    for step in steps:
        reply, state = operated(width, height, state, Operate(step, mask, FromContour(reply.contour_length)))
        replies.append(reply)
    return Ran(0, replies, reply.contour_length, state.picture, mask, state.queue)


def run_steps(width, height, steps, picture, mask, queue):
    """Running steps in hand on a lent picture with a lent mask."""
    try:
        check_steps_in_hand(width, height, steps)
        check_lengths(width * height, picture, mask)
        check_queue(width * height, queue)
        check_pixels(picture, mask)
    except Refused as refusal:
        return Ran(refusal.number, [], 0, picture, mask, queue)
    return run(width, height, steps, mask, State(picture, queue))


def run_job(limit, data, picture, mask, queue):
    """Running a job, whose picture and mask are read into the lent ones."""
    try:
        job = read_job(limit, data)
        check_lengths(job.width * job.height, picture, mask)
        check_queue(job.width * job.height, queue)
    except Refused as refusal:
        return Ran(refusal.number, [], 0, picture, mask, queue)
    return run(job.width, job.height, job.steps, job.mask, State(job.picture, queue))


def lane_listing(data):
    """What the lane program prints for these bytes on its standard input."""
    try:
        job = read_job(LANE_LIMIT, data)
    except Refused as refusal:
        return 'refused %d\n' % refusal.number
    width, height, size = job.width, job.height, job.width * job.height
    ran = run(width, height, job.steps, job.mask, State(job.picture, [0] * size))
    numbering = Number(8, [0] * size, [0] * size, [0] * (RECORD_LENGTH * LANE_RECORDS))
    reply, _ = numbered(width, height, State(ran.picture, ran.queue), numbering)
    if reply.number:
        return 'refused %d\n' % reply.number
    lines = [['plate', width, height, len(job.steps)]]
    for place, (step, told) in enumerate(zip(job.steps, ran.replies), 1):
        lines.append(['step', place, kind_of(step), told.changed, told.used, told.contour_length])
    lines.append(['parts', reply.parts, reply.holes])
    for part in range(1, reply.parts + 1):
        record = reply.records[RECORD_LENGTH * (part - 1):RECORD_LENGTH * part]
        lines.append(['part', *record, depth(reply.records, part)])
    return ''.join(' '.join(map(str, line)) + '\n' for line in lines)


# ======================================================================================================
# PART TWO: THE CASES
# ======================================================================================================

# ---- Values in antt's notation

# What crates/model calls the refusals, in the order of their numbers.
REFUSALS = [
    'BadSize', 'BadLength', 'QueueTooShort', 'BadPixel', 'BadConnectivity', 'BadBorderValue', 'SeedOutside', 'WrongContour',
    'TooManyComponents', 'TooManyHoles', 'TooFewRecords', 'BadVersion', 'BadJobLength', 'BadStep', 'TooManySteps',
    'BadPadding', 'TooManyPixels',
]

# What crates/model calls the constructors.
CONSTRUCTORS = {Erode: 'Erode', Dilate: 'Dilate', Propagate: 'Propagate', Fill: 'FloodFill', Drop: 'ClearBorder',
                ErodeBySides: 'ErodeBySides',
                BySweep: 'Scan', FromContour: 'Contour', Operate: 'operate', Number: 'label', Sweep: 'scan',
                Operated: 'operated', Swept: 'scanned', Numbered: 'labelled', State: 'lent'}

HEADER = '''\
-- Random cases: what tools/crosscheck.py works out against what the definitions compute.
use Rattle.std.specs.Prelude.{ℕ, ◌≡◌, List, [], ◌∷◌, replicate}
use Rattle.std.proofs.Math.Option.{none, some}
use mathlib.Core.Path.{refl}
use Rattle.lists.specs.Text.{ascii}
use Rattle.model.specs.declared.Refusal.TheVariants.{REFUSALS}
use Rattle.model.specs.declared.Step.TheVariants.{Erode, Dilate, Propagate, FloodFill, ClearBorder, ErodeBySides}
use Rattle.model.specs.declared.Start.TheVariants.{Scan, Contour}
use Rattle.model.specs.Refusals.{first_refusal, label_checks}
use Rattle.model.specs.Depth.{depth}
use Rattle.model.specs.Queue.{front}
use Rattle.model.specs.Widening.{widen_map}
use Rattle.model.specs.Calls.{Call, operate, label, scan, Reply, operated, scanned, labelled, State, Outcome, lent, call, replies, final}
use Rattle.model.specs.Codec.{read_job, refused_job, accepted_job, job_bytes, write_job, unpack_job}
use Rattle.model.specs.Run.{run_steps, run_job}
use Rattle.model.specs.Listing.{lane_listing}
use Rattle.model.specs.Words.{operate_words, pack_words, unpack_words}
use Rattle.model.proofs.Computed.{computed}

-- what can be seen after a list of calls: the replies, the image and the queue
data Seen : Type 0 where
  seen : List Reply → List ℕ → List ℕ → Seen

abbrev after_one : Outcome → Seen
after_one outcome = seen (outcome.reply ∷ []) outcome.state.image outcome.state.queue

abbrev after_all : ℕ → ℕ → State → List Call → Seen
after_all width height state calls =
    let last = final width height state calls in
    seen (replies width height state calls) last.image last.queue
'''.replace('REFUSALS', ', '.join(REFUSALS))


def antt(value):
    """A number, a list, a step, a call or a reply in antt's notation."""
    if isinstance(value, int):
        return str(value)
    if isinstance(value, list):
        return '(%s)' % ' ∷ '.join([antt(each) for each in value] + ['[]']) if value else '[]'
    words = [CONSTRUCTORS[type(value)]] + [antt(each) for each in value]
    return '(%s)' % ' '.join(words) if len(words) > 1 else words[0]


def antt_record(**fields):
    """A record in antt's notation."""
    return 'record { %s }' % '; '.join('%s = %s' % (name, antt(value)) for name, value in fields.items())


def antt_job(job):
    """A job in hand in antt's notation."""
    return '(%s)' % antt_record(width=job.width, height=job.height, steps=job.steps, image=job.picture, mask=job.mask)


def antt_seen(replies, state):
    """What can be seen after a list of calls, in antt's notation."""
    return 'seen %s %s %s' % (antt(replies), antt(state.picture), antt(state.queue))


def antt_ran(ran):
    """What a run answers, in antt's notation."""
    return antt_record(number=ran.number, replies=ran.replies, contour_length=ran.contour_length,
                       image=ran.picture, mask=ran.mask, queue=ran.queue)


def antt_text(text):
    """A text as a list of bytes."""
    return 'ascii "%s"' % text.replace('\n', '\\n')


# A case: its kind, the expression that antt computes, what it must be, and the refusal numbers (or 0) in it.
Case = namedtuple('Case', 'kind expression answer numbers')

# ---- Random crops

dice = random.Random()


def often(chance):
    """True with this chance."""
    return dice.random() < chance


def random_size(most=6):
    """A width and a height of 1 to 6 or to `most`, often 1 by some or some by 1."""
    shape = dice.random()
    if shape < 0.15:
        return dice.randint(1, 9), 1
    if shape < 0.30:
        return 1, dice.randint(1, 9)
    return dice.randint(2, most), dice.randint(2, most)


def random_rings(width, height):
    """Rings around the middle, square or, linked by 8 alone, diamond-shaped; object and background by turns, or by chance."""
    first, square, by_turns = dice.randrange(2), often(0.5), often(0.5)
    rings = [(first + n) % 2 if by_turns else dice.randrange(2) for n in range(width + height)]

    def ring(x, y):
        across, down = abs(2 * x - width + 1) // 2, abs(2 * y - height + 1) // 2
        return max(across, down) if square else across + down
    return drawn([[0] * width] * height, lambda x, y: rings[ring(x, y)])


def random_pixels(width, height):
    """A crop of one of several looks, in which a pixel or two are turned over at times."""
    def noise(density):
        return [[int(often(density)) for _ in range(width)] for _ in range(height)]

    look, rows = dice.randrange(12), noise(0)
    if look < 4:                                            # noise
        rows = noise(dice.choice([0, 0.1, 0.3, 0.5, 0.5, 0.7, 0.9, 1]))
    elif look < 6:                                          # a plate
        left, top = dice.randrange(width), dice.randrange(height)
        right, bottom = dice.randrange(left, width), dice.randrange(top, height)
        rows = drawn(rows, lambda x, y: int(left <= x <= right and top <= y <= bottom))
    elif look < 10:                                         # rings
        rows = random_rings(width, height)
    else:                                                   # a checkerboard, diagonals or stripes
        across, down, every, turn = dice.randint(0, 2), dice.randint(-1, 1), dice.randint(2, 4), dice.randrange(4)
        rows = drawn(rows, lambda x, y: int((turn + across * x + down * y) % every == 0))
    for _ in range(dice.choice([0, 0, 0, 1, 2])):
        x, y = dice.randrange(width), dice.randrange(height)
        rows[y][x] = 1 - rows[y][x]
    return flat(rows)


def random_step(width, height, operation=None):
    """A step that nothing refuses, of this operation or of any."""
    operation = operation or dice.choice([*REPEATED, Fill, Drop])
    linking, steps = dice.choice([4, 8]), dice.choice([0, 1, 1, 1, 2, 2, 3, 4, dice.randint(5, 9)])
    if operation is Erode:
        return Erode(linking, dice.randrange(2), steps)
    if operation is ErodeBySides:
        return ErodeBySides(linking, dice.randint(0, ALL_SIDES), steps)
    if operation is Fill:
        return Fill(linking, dice.randrange(width), dice.randrange(height))
    return Drop(linking) if operation is Drop else operation(linking, steps)


def junk(count, most=65535):
    """Numbers without meaning up to `most`, some of them small."""
    return [dice.choice([0, 1, dice.randint(0, 40), dice.randint(0, most)]) for _ in range(count)]


# ---- Things made wrong, or nearly wrong


def spoiled_side(side):
    """A side outside 1 to 256, or just inside."""
    return dice.choice([0, 257, 0, 257, 300, 65535, 256, side + 1])


def spoiled_length(buffer, most=1):
    """A buffer that is one shorter or longer, or empty."""
    return dice.choice([buffer[:-1], buffer + [dice.randint(0, most)], []])


def spoiled_picture(pixels):
    """A picture or mask of another length, or with one byte above 1."""
    if often(0.4) or not pixels:
        return spoiled_length(pixels)
    return put(pixels, dice.randrange(len(pixels)), dice.choice([2, 2, 3, 128, 255]))


def spoiled_linking():
    """A linking other than 4 and 8."""
    return dice.choice([0, 1, 2, 3, 5, 6, 7, 9, 12, 84, 255])


def spoiled_step(step, width, height):
    """A step with a linking, a surround, sides or a fill position that is refused; several of these at times."""
    if often(0.4) or isinstance(step, (Dilate, Propagate, Drop)):
        step = step._replace(linking=spoiled_linking())
    if isinstance(step, Erode) and often(0.8):
        step = step._replace(surround=dice.choice([2, 2, 3, 255]))
    if isinstance(step, ErodeBySides) and often(0.8):
        step = step._replace(sides=dice.choice([16, 16, 17, 128, 255]))
    if isinstance(step, Fill) and often(0.8):
        beyond = [(width, step.y), (width, 0), (width + 1, 0), (65535, step.y), (step.x, height), (step.x, 65535), (width, height)]
        step = Fill(step.linking, *dice.choice(beyond))
    return step


def spoiled_steps(steps, width, height):
    """A list of steps with one refused, or with so many that there are 32 or more."""
    if not steps or often(0.25):
        return steps + [Drop(4)] * dice.choice([33, 33, 33 - len(steps), 32 - len(steps)])
    which = dice.randrange(len(steps))
    return put(steps, which, spoiled_step(steps[which], width, height))


def spoiled_words(width, words):
    """Packed rows of another number of words, or with a bit set that is unused in a row's last word."""
    unused = -width % WORD
    if often(0.4) or not words or unused == 0:
        return spoiled_length(words, 2 ** WORD - 1)
    at = dice.randrange(len(words))
    return put(words, at, words[at] | 1 << dice.choice([0, unused - 1, dice.randrange(unused)]))


def put(values, at, value):
    """A list with one entry replaced, if it is there."""
    return values[:at] + [value] + values[at + 1:] if 0 <= at < len(values) else values


SPOILED = {
    'width': lambda lent: spoiled_side(lent['width']),
    'height': lambda lent: spoiled_side(lent['height']),
    'picture': lambda lent: spoiled_picture(lent['picture']),
    'mask': lambda lent: spoiled_picture(lent['mask']),
    'part_map': lambda lent: spoiled_length(lent['part_map']),
    'hole_map': lambda lent: spoiled_length(lent['hole_map']),
    'byte_map': lambda lent: spoiled_length(lent['byte_map']),
    'labels': lambda lent: spoiled_length(lent['labels']),
    'queue': lambda lent: dice.choice([lent['queue'][:max(0, len(lent['picture']) - 1)], lent['queue'][:-1], []]),
    'words': lambda lent: spoiled_words(lent['width'], lent['words']),
    'linking': lambda lent: spoiled_linking(),
    'step': lambda lent: spoiled_step(lent['step'], lent['width'], lent['height']),
    'steps': lambda lent: spoiled_steps(lent['steps'], lent['width'], lent['height']),
}


def spoiled(lent, names):
    """What a caller lends, by name, with some of the named things made wrong: most often none, else one or several."""
    for _ in range(dice.choice([0] * 8 + [1] * 5 + [2] * 4 + [3] * 3)):
        name = dice.choice(names.split())
        lent = dict(lent, **{name: SPOILED[name](lent)})
    return lent


# ---- Queues and contours


def random_queue(width, height):
    """A queue full of junk, often longer than the crop."""
    return junk(width * height + dice.choice([0, 0, 0, 1, 2, 5]))


def with_front(front, queue):
    """The queue with this at its front, as much as fits."""
    return (front + queue[len(front):])[:len(queue)]


def contour_start(width, height, picture, queue):
    """A queue with a contour at its front, and a start from it: the right one in some order, or a wrong one."""
    front = contour(rows_of(width, picture))
    dice.shuffle(front)
    others = [at for at in range(width * height) if at not in front]
    size, length = width * height, len(front)
    some = dice.randrange(length) if front else None
    wrong = dice.randrange(20)
    if wrong == 0 and front:                                # one repeated in place of another
        front[some] = dice.choice(front)
    elif wrong == 1 and front:                              # one repeated besides
        front, length = front + [front[some]], length + 1
    elif wrong == 2 and front:                              # one missing
        front, length = front[:-1], length - 1
    elif wrong == 3 and others:                             # one extra, not on the contour
        front, length = front + [dice.choice(others)], length + 1
    elif wrong == 4 and others and front:                   # one replaced by one not on the contour
        front[some] = dice.choice(others)
    elif wrong == 5:                                        # a position outside the crop besides
        front, length = front + [dice.choice([size, size + 1, 65535])], length + 1
    elif wrong == 6 and front:                              # a position outside the crop in place of another
        front[some] += size
    elif wrong == 7:                                        # longer than the queue
        length = len(queue) + dice.choice([1, 1, 2, 65536])
    elif wrong == 8:                                        # length 0
        length = 0
    elif wrong == 9:                                        # the junk behind counted in
        length += 1
    elif wrong == 10:                                       # as long as the queue
        length = len(queue)
    return with_front(front, queue), FromContour(length)


# ---- Cases of single calls


def call_case(kind, width, height, state, call):
    """A case of one call: reply, picture and queue."""
    reply, after = answered(width, height, state, call)
    expression = 'after_one (call %d %d %s %s)' % (width, height, antt(state), antt(call))
    return Case(kind, expression, antt_seen([reply], after), [reply.number])


def operation_case(operation):
    """One call of an operation, by a sweep or from a contour."""
    width, height = random_size()
    picture, queue, mask = random_pixels(width, height), random_queue(width, height), random_pixels(width, height)
    start = BySweep()
    if often(0.5):
        queue, start = contour_start(width, height, picture, queue)
    if operation is not Propagate and often(0.5):
        mask = junk(dice.randint(0, 4))                     # only propagation has a mask that is judged
    lent = dict(width=width, height=height, picture=picture, queue=queue, mask=mask, step=random_step(width, height, operation))
    lent = spoiled(lent, 'width height picture queue step step step ' + ('mask mask' if operation is Propagate else 'step'))
    state, call = State(lent['picture'], lent['queue']), Operate(lent['step'], lent['mask'], start)
    return call_case(operation.__name__.lower(), lent['width'], lent['height'], state, call)


def sides_case():
    """Erosion by sides of a crop that either surround would leave otherwise, by a sweep or from a contour."""
    told_apart = False
    while not told_apart:
        width, height = random_size()
        density, step = dice.choice([0.7, 0.9, 1]), random_step(width, height, ErodeBySides)
        picture = [int(often(density)) for _ in range(width * height)]
        rows = rows_of(width, picture)
        by_surround = [performed(rows, Erode(step.linking, surround, step.steps), []) for surround in (0, 1)]
        told_apart = performed(rows, step, []) not in by_surround
    queue, start = random_queue(width, height), BySweep()
    if often(0.5):
        queue, start = contour_start(width, height, picture, queue)
    return call_case('erodebysides', width, height, State(picture, queue), Operate(step, [], start))


def long_case():
    """An operation on a crop of the largest width or height."""
    side, operation = dice.choice([255, 256]), dice.choice(REPEATED)
    width, height = dice.choice([(side, 1), (1, side)])
    step = random_step(width, height, operation)._replace(steps=dice.randint(0, 2))
    call = Operate(step, random_pixels(width, height), BySweep())
    return call_case(operation.__name__.lower(), width, height, State(random_pixels(width, height), [0] * side), call)


# Which rows of a picture are made blank, of so many.
BLANKED = {
    'none': lambda height: [],
    'first': lambda height: [0],
    'last': lambda height: [height - 1],
    'some': lambda height: [y for y in range(height) if often(0.5)],
    'all': lambda height: range(height),
}


def sweep_case():
    """One call of the sweep by itself, of a picture in which each row has an object pixel but those made blank."""
    width, height = random_size()
    picture, which = random_pixels(width, height), dice.choice(list(BLANKED))
    blanked = BLANKED[which](height)
    for y in range(height):
        picture[y * width + dice.randrange(width)] = 1
    for y in blanked:
        picture[y * width:(y + 1) * width] = [0] * width
    lent = dict(width=width, height=height, picture=picture, queue=random_queue(width, height))
    lent = spoiled(lent, 'width height picture picture queue queue')
    return call_case('sweep, ' + which, lent['width'], lent['height'], State(lent['picture'], lent['queue']), Sweep())


def random_numbering(width, height, picture):
    """A call of numbering: records exact, some entries short, or longer than needed; all lent full of junk."""
    linking = dice.choice([4, 8])
    needed = RECORD_LENGTH * len(parts_of(rows_of(width, picture), linking))
    entries = max(0, needed + dice.choice([0, 0, 0, 1, 3, 10, 17, -1, -1, -10]))
    return Number(linking, junk(width * height), junk(width * height), junk(entries, 4294967295))


def numbering_case():
    """One call of numbering."""
    width, height = random_size(most=5)
    picture = random_pixels(width, height)
    call = random_numbering(width, height, picture)
    lent = dict(width=width, height=height, picture=picture, queue=random_queue(width, height), **call._asdict())
    lent = spoiled(lent, 'width height picture picture part_map hole_map queue linking linking')
    call = Number(lent['linking'], lent['part_map'], lent['hole_map'], lent['records'])
    return call_case('number', lent['width'], lent['height'], State(lent['picture'], lent['queue']), call)


def linked_case():
    """Fill, drop or numbering, with nothing wrong, on a crop in which paths by 4 and by 8 differ."""
    width, height, density = dice.randint(3, 5), dice.randint(3, 5), dice.choice([0.4, 0.5, 0.6])
    picture = [int(often(density)) for _ in range(width * height)]
    if often(0.3):
        picture = flat(random_rings(width, height))
    state, operation = State(picture, random_queue(width, height)), dice.choice([Fill, Drop, Drop, Number])
    if operation is Number:
        return call_case('number', width, height, state, random_numbering(width, height, picture))
    call = Operate(random_step(width, height, operation), [], BySweep())
    return call_case(operation.__name__.lower(), width, height, state, call)


def nested_case():
    """Numbering of rings within rings, with a hole by either linking."""
    side, rows = 7 if often(0.05) else 5, [[1]]
    while not holes_of(rows, 4):
        rows = random_rings(side, side)
    picture = flat(rows)
    return call_case('number', side, side, State(picture, [0] * (side * side)), random_numbering(side, side, picture))


def holes_case():
    """Numbering of a crop whose holes differ by the linking, most often within a rim of object pixels."""
    rows = [[1]]
    while len(holes_of(rows, 4)) == len(holes_of(rows, 8)):
        width, height, rim = dice.randint(3, 5), dice.randint(3, 5), often(0.7)
        noise = [int(often(0.6)) for _ in range(width * height)]
        rows = random_rings(width, height) if often(0.3) else rows_of(width, noise)
        rows = drawn(rows, lambda x, y: 1 if rim and on_edge(rows, x, y) else rows[y][x])
    picture = flat(rows)
    return call_case('number', width, height, State(picture, [0] * len(picture)), random_numbering(width, height, picture))


# ---- Cases of packed rows


def random_word_size():
    """A small crop, or one or two rows that end around the end of a word."""
    if often(0.4):
        return random_size()
    return dice.choice([63, 64, 65, 66, dice.randint(60, 70), 127, 128, 129]), dice.randint(1, 2)


def words_case(operation):
    """One call of an operation on packed rows."""
    width, height = random_word_size()
    step, picture = random_step(width, height, operation), random_pixels(width, height)
    if width > WORD // 2:
        step = step._replace(steps=min(step.steps, 2))
    lent = dict(width=width, height=height, step=step, words=packed(width, picture, WORD))
    lent = spoiled(lent, 'width height words words words step step')
    order = [lent[name] for name in ('width', 'height', 'step', 'words')]
    answer = operate_words(*order)
    expression = 'operate_words %s %s %s %s' % tuple(map(antt, order))
    return Case(operation.__name__.lower() + ' words', expression, antt_record(**answer._asdict()), [answer.number])


REPACKINGS = {'pack_words': pack_words, 'unpack_words': unpack_words}


def repacking_case():
    """Packing a picture into lent words, or unpacking words into a lent picture. What is written holds junk before."""
    width, height = random_word_size()
    picture = random_pixels(width, height)
    lent = dict(width=width, height=height, picture=picture, words=packed(width, picture, WORD))
    lent = spoiled(lent, 'width height picture picture words words')
    definition = dice.choice(list(REPACKINGS))
    if definition == 'pack_words':
        lent['words'] = junk(len(lent['words']), 2 ** WORD - 1)
    else:
        lent['picture'] = junk(len(lent['picture']), 255)
    order = [lent[name] for name in ('width', 'height', 'picture', 'words')]
    answer = REPACKINGS[definition](*order)
    expression = ' '.join([definition] + list(map(antt, order)))
    expected = antt_record(number=answer.number, image=answer.picture, words=answer.words)
    return Case(REPACKINGS[definition].__name__.replace('_', ' '), expression, expected, [answer.number])


# ---- Cases of lists of calls


def random_call(width, height, state):
    """A call that fits the state: most often accepted, with the contour that the one before left."""
    what = dice.randrange(12)
    if what == 0:
        return Sweep()
    if what < 3:
        call = random_numbering(width, height, state.picture)
        return call._replace(linking=spoiled_linking()) if often(0.2) else call
    step, mask = random_step(width, height), random_pixels(width, height)
    if often(0.1):
        step = spoiled_step(step, width, height)
    if often(0.1):
        mask = spoiled_picture(mask)
    length = len(contour(rows_of(width, state.picture))) + dice.choice([0] * 8 + [-1, 1, 1000])
    return Operate(step, mask, FromContour(max(0, length)) if often(0.6) else BySweep())


def list_case():
    """A list of calls: contours handed on, refused calls in between, and at times a size or buffer that refuses all."""
    width, height = random_size(most=4)
    picture, queue = random_pixels(width, height), random_queue(width, height)
    if often(0.1):
        picture = [1] + [0] * (width * height - 1)          # its contour is position 0 alone, as zeros in the queue are
    if often(0.5):
        queue, _ = contour_start(width, height, picture, queue)
    state, calls = State(picture, queue), []
    for _ in range(dice.randint(2, 6)):
        calls.append(random_call(width, height, state))
        _, state = answered(width, height, state, calls[-1])
    lent = dict(width=width, height=height, picture=picture, queue=queue)
    if often(0.2):
        lent = spoiled(lent, 'width height picture queue')
    first = State(lent['picture'], lent['queue'])
    replies, last = answered_all(lent['width'], lent['height'], first, calls)
    expression = 'after_all %d %d %s %s' % (lent['width'], lent['height'], antt(first), antt(calls))
    return Case('list of calls', expression, antt_seen(replies, last), [reply.number for reply in replies])


# ---- Cases of depth, of the stretch, of maps carried over, and of the table's last row


def depth_case():
    """The depth of a part by records from anywhere: right ones, chains, damaged ones, records cut short."""
    count = dice.randint(0, 12)
    records = junk(RECORD_LENGTH * count, 4294967295)
    for part in range(1, count + 1):
        enclosing = dice.choice([part - 1] * 6 + [dice.randrange(part)] * 6 + [0, part, part + 1, 429496730])
        records[RECORD_LENGTH * part - 1] = enclosing
    if often(0.2):
        records = records[:len(records) - dice.randint(1, 9)] if records else [7] * dice.randint(1, 9)
    part = dice.choice([count] * 6 + [dice.randint(0, count)] * 4 + [0, count + 1, 429496730, 4294967295])
    return Case('depth', 'depth %s %d' % (antt(records), part), antt(depth(records, part)), [])


def stretch_case():
    """The stretch of a queue that is handed to the caller."""
    queue = junk(dice.randint(0, 8))
    length = dice.choice([dice.randint(0, 9), len(queue), len(queue) + 1, 65535])
    return Case('stretch', 'front %d %s' % (length, antt(queue)), antt(stretch(length, queue)), [])


def widen_case():
    """Carrying a map of byte numbers over into a map of 16 bits."""
    width, height = dice.choice([(256, 1), (1, 256)]) if often(0.1) else random_size()
    lent = dict(width=width, height=height, byte_map=junk(width * height, 255), labels=junk(width * height))
    lent = spoiled(lent, 'width height byte_map byte_map labels labels')
    number, byte_map, labels = widen_map(**lent)
    expression = 'widen_map %s' % ' '.join(map(antt, lent.values()))
    return Case('widen map', expression, antt_record(number=number, bytes=byte_map, labels=labels), [number])


def counts_case():
    """The refusals of numbering by counts alone, since so many parts take antt too long to find."""
    around = [0, 1, 3, 255, 256, LANE_RECORDS, LANE_RECORDS + 1, MOST_PARTS, MOST_PARTS + 1]
    parts, holes = dice.choice(around), dice.choice(around)
    entries = RECORD_LENGTH * min(parts, LANE_RECORDS) - dice.randint(0, 1)
    entries, number = dice.choice([0, 10, 30]) if often(0.2) else max(0, entries), 0
    try:
        check_numbering(parts, holes, [0] * entries)
    except Refused as refusal:
        number = refusal.number
    answer = 'some %s' % REFUSALS[number - 1] if number else 'none'
    expression = 'first_refusal (label_checks %d %d (replicate %d 0))' % (parts, holes, entries)
    return Case('counts', expression, answer, [number])


# ---- Jobs


def random_job(runs):
    """A job in hand that nothing refuses. Widths around 8 and 16 bring padding. One that runs has few steps each."""
    width, height = random_size()
    if often(0.3):
        width, height = dice.choice([7, 8, 9, 15, 16, 17]), dice.randint(1, 2)
    steps = [random_step(width, height) for _ in range(dice.randint(0, 4))]
    for which, step in enumerate(steps):
        if isinstance(step, REPEATED) and not runs:
            steps[which] = step._replace(steps=dice.choice([step.steps, 255, 256, 65535]))
    return Job(width, height, steps, random_pixels(width, height), random_pixels(width, height))


def long_job():
    """A job of 31 to 33 steps on a tiny crop."""
    width, height = dice.randint(1, 2), dice.randint(1, 2)
    kinds = [Erode, ErodeBySides, Dilate, Drop, Fill]
    steps = [random_step(width, height, dice.choice(kinds)) for _ in range(dice.choice([31, 32, 32, 33]))]
    return Job(width, height, steps, random_pixels(width, height), random_pixels(width, height))


def big_head():
    """A job that is nothing but a head, with a size around 8,192 pixels or at the largest."""
    sizes = [(128, 64), (256, 32), (34, 241), (241, 34), (91, 91), (129, 64), (256, 33), (257, 32), (256, 256)]
    width, height = dice.choice(sizes)
    return [1, 0, 8, *width.to_bytes(2, 'big'), *height.to_bytes(2, 'big'), dice.choice([0, 1, 32, 33, 255])]


def with_length(data):
    """A job's bytes with the length field put right."""
    return data[:1] + list(len(data).to_bytes(2, 'big')) + data[3:] if len(data) >= 3 else data


def damaged(job, data):
    """The bytes of a job with one thing made wrong."""
    starts = [8 + sum(len(step_record(step)) for step in job.steps[:which]) for which in range(len(job.steps) + 1)]
    pictures, at = starts[-1], dice.choice(starts[:-1] or starts)
    what = dice.randrange(22)
    if what < 2:                                            # version, or nothing at all
        return dice.choice([[], put(data, 0, 0), put(data, 0, 2), put(data, 0, 255)])
    if what == 2:                                           # length field
        return put(data, dice.choice([1, 2]), dice.randint(0, 255))
    if what == 3:                                           # a side
        side, field = dice.choice([(0, 0), (1, 0), (1, 1), (255, 255), (0, dice.randint(1, 9))]), dice.choice([3, 5])
        return put(put(data, field, side[0]), field + 1, side[1])
    if what < 6:                                            # step total
        return put(data, 7, dice.choice([32, 33, 34, 255, len(job.steps) + 1, max(0, len(job.steps) - 1)]))
    if what == 6:                                           # cut off, with the length field right or not
        shorter = data[:dice.randint(0, len(data) - 1)]
        return with_length(shorter) if often(0.6) else shorter
    if what == 7:                                           # longer, with the length field right or not
        longer = data + junk(dice.randint(1, 3), 255)
        return with_length(longer) if often(0.6) else longer
    if what == 8:                                           # cut off within the records
        return with_length(data[:dice.randint(7, pictures)])
    if what == 9:                                           # a length byte
        return put(data, at, dice.choice([0, 1, data[at] + 1 & 255, data[at] - 1 & 255, 255]))
    if what == 10:                                          # a kind
        return put(data, at + 1, dice.choice([0, 6, 8, 255, dice.randint(1, 7)]))
    if what == 11:                                          # a linking
        return put(data, at + 2, spoiled_linking())
    if what < 14:                                           # the field behind: a surround, sides, a high byte
        return put(data, at + 3, dice.choice([1, 2, 3, 15, 16, 255]))
    if what < 16:                                           # low bytes of x and y
        return put(data, at + dice.choice([4, 6]), dice.choice([job.width, job.height, 255]))
    if what < 19:                                           # bits of the pictures, padding among them
        where = dice.randrange(pictures, len(data))
        return put(data, where, data[where] | dice.choice([1, 1, 2, 4, 255]))
    if what == 19:                                          # a last byte 0, or none, where a record is to begin
        return put(with_length(data[:at] + dice.choice([[0], []])), 7, len(starts))
    if what == 20:                                          # a record with a field byte too many
        return with_length(data[:at] + [data[at] + 1 & 255] + data[at + 1:at + 2] + [4] + data[at + 2:])
    return put(data, dice.randrange(len(data)), dice.randint(0, 255))


def takes_long(data):
    """Whether these bytes are a job that antt does not run in reasonable time, for a step count that damage made large."""
    try:
        return any(isinstance(step, REPEATED) and step.steps > 20 for step in read_job(NO_LIMIT, data).steps)
    except Refused:
        return False


def random_job_bytes(runs=False):
    """A job and bytes: its own in most cases, else damaged once or twice; or a big head alone."""
    job = random_job(runs)
    right = data = job_bytes(job)
    if often(0.1):
        return job, big_head()
    for _ in range(dice.choice([0, 0, 0, 1, 1, 1, 2])):
        data = damaged(job, data) if len(data) == len(right) else data
    return job, right if runs and takes_long(data) else data


# ---- Cases of jobs


def read_case():
    """Reading a job."""
    data = job_bytes(long_job()) if often(0.04) else random_job_bytes()[1]
    limit, number = dice.choice([LANE_LIMIT, NO_LIMIT]), 0
    try:
        answer = 'accepted_job %s' % antt_job(read_job(limit, data))
    except Refused as refusal:
        number, answer = refusal.number, 'refused_job %s' % REFUSALS[refusal.number - 1]
    return Case('read job', 'read_job %d %s' % (limit, antt(data)), answer, [number])


def bytes_case():
    """The bytes of a job in hand."""
    job = random_job(runs=False)
    return Case('job bytes', 'job_bytes %s' % antt_job(job), antt(job_bytes(job)), [])


def write_case():
    """Writing a job in hand into a buffer."""
    job = long_job() if often(0.04) else random_job(runs=False)
    job = Job(**spoiled(job._asdict(), 'width height picture mask mask steps steps steps'))
    buffer = junk(min(job_length(job), 300), 255)
    if often(0.2):
        buffer = spoiled_length(buffer, 255)
    number, after = write_job(job, buffer)
    return Case('write job', 'write_job %s %s' % (antt_job(job), antt(buffer)), antt_record(number=number, buffer=after), [number])


def lent_for(job):
    """A picture and a mask to read a job into, full of junk, at times of a wrong length."""
    buffers = [junk(job.width * job.height, 255) for _ in range(2)]
    return [spoiled_length(buffer) if often(0.15) else buffer for buffer in buffers]


def unpack_case():
    """Reading a job into a lent picture and mask."""
    job, data = random_job_bytes()
    picture, mask = lent_for(job)
    limit = dice.choice([LANE_LIMIT, NO_LIMIT])
    number, picture_after, mask_after = unpack_job(limit, data, picture, mask)
    expression = 'unpack_job %d %s %s %s' % (limit, antt(data), antt(picture), antt(mask))
    return Case('unpack job', expression, antt_record(number=number, image=picture_after, mask=mask_after), [number])


def run_job_case():
    """Running a job from its bytes."""
    job, data = random_job_bytes(runs=True)
    picture, mask = lent_for(job)
    queue = junk(job.width * job.height + dice.choice([0, 0, 0, 2, -1]))
    limit = dice.choice([LANE_LIMIT, NO_LIMIT])
    ran = run_job(limit, data, picture, mask, queue)
    expression = 'run_job %d %s %s %s %s' % (limit, antt(data), antt(picture), antt(mask), antt(queue))
    return Case('run job', expression, antt_ran(ran), [ran.number])


def run_steps_case():
    """Running steps in hand."""
    job = long_job() if often(0.04) else random_job(runs=True)
    lent = dict(job._asdict(), queue=random_queue(job.width, job.height))
    lent = spoiled(lent, 'width height picture mask mask queue queue steps steps')
    order = [lent[name] for name in ('width', 'height', 'steps', 'picture', 'mask', 'queue')]
    ran = run_steps(*order)
    return Case('run steps', 'run_steps %s' % ' '.join(map(antt, order)), antt_ran(ran), [ran.number])


def listing_case():
    """What the lane program prints."""
    _, data = random_job_bytes(runs=True)
    if often(0.3):                                          # a part within a part
        picture = flat(random_rings(5, 5))
        data = job_bytes(Job(5, 5, [random_step(5, 5, Fill)] * dice.randrange(2), picture, picture))
    text = lane_listing(data)
    number = int(text.split()[1]) if text.startswith('refused') else 0
    return Case('listing', 'lane_listing %s' % antt(data), antt_text(text), [number])


# How often each kind of case is made.
MAKERS = [
    (11, lambda: operation_case(Erode)), (10, lambda: operation_case(Dilate)), (14, lambda: operation_case(Propagate)),
    (11, lambda: operation_case(Fill)), (8, lambda: operation_case(Drop)), (8, lambda: operation_case(ErodeBySides)),
    (6, sides_case), (1, long_case), (8, sweep_case),
    (12, numbering_case), (10, linked_case), (4, nested_case), (9, holes_case), (10, list_case),
    (4, depth_case), (2, stretch_case), (4, widen_case), (4, counts_case),
    (13, read_case), (2, bytes_case), (9, write_case), (6, unpack_case), (8, run_job_case), (8, run_steps_case), (7, listing_case),
    (6, lambda: words_case(Erode)), (8, lambda: words_case(ErodeBySides)), (6, lambda: words_case(Dilate)), (6, repacking_case),
]


def random_cases(count):
    """This many random cases."""
    weights, makers = zip(*MAKERS)
    return [make() for make in dice.choices(makers, weights, k=count)]


# ---- The scratch repository

CASES_PER_CRATE = 250


def crates_needed():
    """The crates that the definitions stand in, with those that each depends on, by the repository's crates.txt."""
    listed = {}
    for line in pathlib.Path('crates.txt').read_text(encoding='utf-8').splitlines():
        name, colon, dependencies = line.split('#')[0].partition(':')
        if colon:
            listed[name.strip()] = dependencies.split()
    needed, waiting = {}, ['lists', 'neighbours', 'model']
    while waiting:
        name = waiting.pop(0)
        if name in listed and name not in needed:
            needed[name] = listed[name]
            waiting += listed[name]
    return needed


def theorem(number, case):
    """The theorem that a case computes to its answer."""
    return '\ncase%d : %s\n    ≡ %s\nunfolding computed\ncase%d = refl\n' % (number, case.expression, case.answer, number)


def write_repository(folder, cases):
    """Writes the scratch repository: copies of the crates with the definitions, and the crates of cases, whose names it gives."""
    crates, names = crates_needed(), []
    for name in crates:
        shutil.copytree('crates/' + name, folder / 'crates' / name, ignore=shutil.ignore_patterns('must-fail', 'out'))
    for start in range(0, len(cases), CASES_PER_CRATE):
        names.append('cases%d' % (start // CASES_PER_CRATE))
        crates[names[-1]] = ['lists', 'neighbours', 'model']
        crate, some = folder / 'crates' / names[-1], list(enumerate(cases))[start:start + CASES_PER_CRATE]
        (crate / 'src').mkdir(parents=True)
        (crate / 'proofs').mkdir()
        (crate / 'src/lib.rt').write_text('// No code: proofs/Cases.antt holds a theorem for each case.\n#![tactic(auto)]\n')
        (crate / 'proofs/Lib.antt').write_text('mod Cases\n')
        theorems = ''.join(theorem(number, case) for number, case in some)
        (crate / 'proofs/Cases.antt').write_text(HEADER + theorems, encoding='utf-8')
    (folder / 'crates.txt').write_text(''.join('%s: %s\n' % (name, ' '.join(needs)) for name, needs in crates.items()))
    return names


# What antt says of a case that it did not compute to the end.
LIMITS = ('stopped at the step limit', 'outgrew the memory limit', 'deep recursion')


def check(folder, names):
    """Has rt check all crates, two at a time: whether it proved these, what antt says of each case that it refuses, all it says."""
    command = subprocess.run(['rt', 'all', 'check', '--jobs', '2'], cwd=folder,
                             stdout=subprocess.PIPE, stderr=subprocess.STDOUT, encoding='utf-8')
    messages, proved, crate, case = {}, set(), None, None
    for line in command.stdout.splitlines():
        begins = re.match(r'\S+/Cases\.antt:\d+:\d+: error: `case(\d+)`: (.*)', line)
        if begins:
            case = int(begins.group(1))
            messages[case] = [begins.group(2)]
        elif case is not None and line.startswith('  '):
            messages[case].append(line.strip())
        else:
            case = None
        if line.startswith('== '):
            crate = line[3:]
        elif line.startswith('logic=proved '):
            proved.add(crate)
    return command.returncode == 0 and proved.issuperset(names), messages, command.stdout


# ---- What is printed


def print_counts(cases):
    """How many cases there are of each kind, and how often each refusal number came."""
    for kind, count in sorted(Counter(case.kind for case in cases).items()):
        print('%-14s %5d' % (kind, count))
    numbers = Counter(number for case in cases for number in case.numbers)
    print('refusal number: how many times (0: accepted)')
    for row in (range(9), range(9, 19)):
        print('   '.join('%d: %d' % (number, numbers[number]) for number in row))


def cut(text, most):
    """A text cut to this many characters; the scratch repository has it whole."""
    return text if len(text) <= most else text[:most] + ' ..'


def print_disagreement(number, case, message):
    """A case, what this program says, and what antt says."""
    print('\ncase%d (%s)' % (number, case.kind))
    print('  expression   ' + cut(case.expression, 2000))
    print('  this program ' + cut(case.answer, 2000))
    for line in message:
        print('  antt         ' + cut(line, 400))


def main():
    """Makes the cases, has them checked, and says how it went."""
    words = argparse.ArgumentParser(description=__doc__, formatter_class=argparse.RawDescriptionHelpFormatter)
    words.add_argument('--cases', type=int, default=3000, help='how many cases (3000)')
    words.add_argument('--seed', type=int, default=1, help='where the random numbers start (1)')
    words.add_argument('--keep', action='store_true', help='keep the scratch repository also when all agree')
    words = words.parse_args()
    if not pathlib.Path('crates/model/specs').is_dir():
        print('crosscheck: run this from the root of the repository')
        return 2
    sys.stdout.reconfigure(encoding='utf-8')
    dice.seed(words.seed)
    cases = random_cases(words.cases)
    print_counts(cases)
    folder, kept = pathlib.Path(tempfile.mkdtemp(prefix='crosscheck-')), words.keep
    try:
        proved, messages, output = check(folder, write_repository(folder, cases))
        kept = kept or not proved
    finally:
        if not kept:
            shutil.rmtree(folder)
    if proved:
        print('%d cases: all agree' % len(cases) + ('; see %s' % folder if kept else ''))
        return 0
    unfinished = [number for number in sorted(messages) if any(limit in messages[number][0] for limit in LIMITS)]
    different = [number for number in sorted(messages) if number not in unfinished]
    for number in (different or unfinished)[:5]:
        print_disagreement(number, cases[number], messages[number])
    if not messages:
        lines = output.splitlines()
        for line in [line for line in lines if 'error:' in line][:20] + lines[-20:]:
            print(cut(line, 400))
    counts = len(cases), len(different), len(unfinished), folder
    print('\n%d cases: %d disagree, %d took antt too many steps or too much memory; see %s' % counts)
    return 1


if __name__ == '__main__':
    sys.exit(main())
