"""The ways in which hostile servers answer, and which requests they answer so. A way takes a turn and returns the pieces that are sent."""
import re

from answers import END, head, part_of, served, whole_of
from hostile_server import DIRECTORY, FILE, FORGED, NEXT_FILE, NEXT_TAG, SPENT, TAG

# ---- which requests

def always(_turn):
    return True

def never(_turn):
    return False

def first(turn):
    return turn.number == 0

def fifth(turn):
    """One of those that readers send at once, where they do."""
    return turn.number == 4

def from_fifth(turn):
    return turn.number >= 4

def each_second(turn):
    return turn.number % 2 == 1

def at_place(place):
    """The request at this place of its connection, from 0 on."""
    return lambda turn: turn.place == place

def followed(turn):
    """A request with which others came."""
    return turn.is_followed()

# ---- pieces around the true answer

def sent(*pieces):
    return lambda turn: pieces

def true(*more):
    """The true answer, and more after it."""
    return lambda turn: [turn.answer, *more]

def after(*pieces):
    """The true answer after these pieces."""
    return lambda turn: [*pieces, turn.answer]

def with_more(more):
    """The true answer, and more in the same piece."""
    return lambda turn: [turn.answer + more]

def twice(turn):
    return [turn.answer * 2]

def with_forged_directory(turn):
    """The true answer, and in the same piece a forged one to the request that comes next."""
    return [turn.answer + part_of(FORGED, *DIRECTORY, TAG)]

# ---- other heads

def line_of(name):
    """What matches the line of a field."""
    return name + rb': .*?\r\n'

LENGTH, COMPLETE = line_of(b'Content-Length'), rb'(?<=[0-9])/[0-9]+'

def replaced(text, old, new):
    """A text whose head has `new` instead of what `old` matches first."""
    front, end, body = text.partition(END)
    changed, count = re.subn(old, lambda _: new, front + end, count=1)
    assert count == 1, old
    return changed + body

def edited(old, new, *more):
    """The true answer with another head, and more after it."""
    return lambda turn: [replaced(turn.answer, old, new), *more]

def without(name, *more):
    """The true answer without a field, and more after it."""
    return edited(line_of(name), b'', *more)

def with_field(field, *more):
    """The true answer with a field more, and more after it."""
    return edited(END, b'\r\n' + field + END, *more)

def with_lengths(*lines):
    """The true answer with these lines instead of its Content-Length. Each N in them becomes its length."""
    lines = b''.join(line + b'\r\n' for line in lines)
    return lambda turn: [replaced(turn.answer, LENGTH, lines.replace(b'N', b'%d' % len(turn.parts[1])))]

def of_length(turn):
    """A part of a file that is longer by the number of the request."""
    return [replaced(turn.answer, COMPLETE, b'/%d' % (len(FILE) + 1 + turn.number))]

def with_tag(tag):
    """The answer of a server that has the file under this tag."""
    return lambda turn: [served(turn.request, FILE, tag)]

def long(length):
    """The true answer with a head of so many bytes."""
    def way(turn):
        front, body = turn.parts
        return [front[:-2] + b'X: ' + b'x' * (length - len(front) - 5) + END + body]
    return way

def crowded(count):
    """The true answer with so many fields. It has three without more."""
    return with_field(b'\r\n'.join(b'X-%d: x' % number for number in range(count - 3)))

def lines_of_lf(turn):
    front, body = turn.parts
    return [front.replace(b'\r\n', b'\n') + body]

# ---- other bodies

def cut(length, *more):
    """The answer up to this byte of its body."""
    return lambda turn: [turn.parts[0] + turn.parts[1][:length], *more]

def cut_in_head(*more):
    return lambda turn: [turn.answer[:40], *more]

def half(*more):
    """The answer up to the middle of its body."""
    return lambda turn: [turn.parts[0] + turn.parts[1][:len(turn.parts[1]) // 2], *more]

def moved(begins=0, ends=0):
    """The part that begins and ends so many bytes later than what is asked for."""
    def way(turn):
        begin, last = turn.span
        begin = min(max(0, begin + begins), len(FILE) - 1)
        return [part_of(FILE, begin, max(begin, last + ends), TAG)]
    return way

def shorter(length):
    """The first bytes of the part that is asked for, so many of them."""
    return lambda turn: [part_of(FILE, turn.span[0], min(turn.span[1], turn.span[0] + length - 1), TAG)]

def whole(_turn):
    return [whole_of(FILE, TAG)]

def endless(front):
    """These bytes, and zeros for ever."""
    def way(_turn):
        yield front
        while True:
            yield bytes(65536)
    return way

def true_and_endless(turn):
    """The true answer, and zeros for ever."""
    return endless(turn.answer)(turn)

def endless_file(turn):
    """A file that begins with the true one, and goes on with zeros for ever."""
    return endless(head(b'200 OK', b'ETag: ' + TAG, b'Content-Length: %d' % 10 ** 15) + FILE)(turn)

def in_chunks(turn):
    front, body = turn.parts
    front = replaced(front, LENGTH, b'Transfer-Encoding: chunked\r\n')
    return [front + b'%x\r\n' % len(body) + body + b'\r\n0\r\n\r\n']

# ---- bytes in time

def bytes_of(text):
    return [text[at:at + 1] for at in range(len(text))]

def head_in_bytes(turn):
    return [*bytes_of(turn.parts[0]), turn.parts[1]]

def body_in_bytes(turn):
    front, body = turn.parts
    return [front, *bytes_of(body[:200]), body[200:]]

def dripped(text):
    """Yields a byte after another, and a wait after each."""
    for piece in bytes_of(text):
        yield piece
        yield 0.05

def dripping_head(turn):
    return dripped(turn.parts[0][:-2] + b'X: ' + b'x' * 4000)

def dripping_body(turn):
    yield turn.parts[0]
    yield from dripped(turn.parts[1])

def repeated(text):
    """This text for ever."""
    def way(_turn):
        while True:
            yield text
    return way

# ---- requests that come at once

def in_wrong_order(turn):
    following = turn.following()
    return [following.answer, turn.answer]

def one_of_many(turn):
    """The first of the requests that came at once is answered, and the others are dropped."""
    while turn.is_followed():
        turn.following()
    return [turn.answer]

# ---- revisions

def next_revision(turn):
    """The answer of a server at which the file was replaced."""
    return [turn.next_answer]

def by_turns(turn):
    return [turn.next_answer if turn.number % 2 else turn.answer]

def next_part(turn):
    """A part of the new revision, whatever If-Range asks."""
    return [part_of(NEXT_FILE, *turn.span, NEXT_TAG)]

def next_part_untagged(turn):
    return [replaced(*next_part(turn), line_of(b'ETag'), b'')]

def next_whole_weakly(_turn):
    return [replaced(whole_of(NEXT_FILE, NEXT_TAG), rb'ETag: ', b'ETag: W/')]

def always_replaced(turn):
    """The answer of a server at which the file is replaced before each request."""
    return [served(turn.request, FILE, b'"%d"' % turn.number)]

def tagged_anew(turn):
    """A part under a tag of its own, whatever If-Range asks."""
    return [part_of(FILE, *turn.span, b'"%d"' % turn.number)]

# ---- forged bytes

def baited(old, new, is_later):
    """The true head with `new` instead of what `old` matches first, so that the answer isn't used and has no body. A forged answer follows
    it, at once or a little later. Whatever is asked on the connection from there on has forged answers, too."""
    def way(turn):
        front, bait = replaced(turn.parts[0], old, new), turn.bait
        return [front, 0.05, bait, SPENT] if is_later else [front + bait, SPENT]
    return way
