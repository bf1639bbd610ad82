"""Files, URLs and names whose types lie: python hostile.py TURNS. A read beyond a file ends the process, and so does a wrong result."""

import ctypes
import mmap
import pickle
import sys
import threading

from texting_robots import FILE_LIMIT, Matrix, Site, Verdict, product_token, robots_url

# 8 * n + 7 bytes: then the copy of a bytes that ends at a page is aligned
FILE = b"User-agent: FerrisBot\nAllow: /\nUser-agent: *\nDisallow: /a#\nSitemap: /s.xml\n".ljust(151, b"#") + b"\n" * 8
GROUP_OF_ALL, OWN_GROUP = Verdict(False, 4), Verdict(True, 2)
RESERVED = []


class Bytes(bytes):
    """By its methods 100,000 bytes."""

    __slots__ = ()

    def __len__(self):
        return 100_000

    def __bytes__(self):
        return self

    def __getitem__(self, key):
        return self


class Text(str):
    """By its methods 100,000 bytes, without a slash or a line feed, and equal to FerrisBot."""

    def __len__(self):
        return 100_000

    def __str__(self):
        return "FerrisBot"

    def __getitem__(self, key):
        return self

    def __contains__(self, text):
        return False

    def __eq__(self, other):
        return True

    def __hash__(self):
        return hash("FerrisBot")

    def encode(self, *how):
        return Bytes(str.encode(self, *how))


class Texts(list):
    """By its length one text."""

    def __len__(self):
        return 1


def false_type(kind):
    """An object that isn't of this type and says that it is."""
    return type("Object", (), {"__class__": kind, "__len__": Bytes.__len__, "__bytes__": lambda self: Bytes(FILE)})()


def at_a_page(data, kind=ctypes.c_char):
    """An array with this data, and after it a page that nobody may read."""
    pages = -(-len(data) // mmap.PAGESIZE)
    reserved = mmap.mmap(-1, (pages + 1) * mmap.PAGESIZE)
    RESERVED.append(reserved)
    page = ctypes.addressof(ctypes.c_char.from_buffer(reserved)) + pages * mmap.PAGESIZE
    assert ctypes.CDLL(None).mprotect(ctypes.c_void_p(page), ctypes.c_size_t(mmap.PAGESIZE), 0) == 0
    ctypes.memmove(page - len(data), data, len(data))
    return (kind * (len(data) // ctypes.sizeof(kind))).from_address(page - len(data))


def bytes_at_a_page(data):
    """A Bytes whose memory ends there: a copy of one with its header and the NUL after it."""
    copied = Bytes(data)
    array = at_a_page(ctypes.string_at(id(copied), Bytes.__basicsize__ + len(data)))
    return ctypes.cast(ctypes.addressof(array), ctypes.py_object).value


def views(data):
    """Buffers with these bytes, of several formats, dimensions and strides."""
    yield memoryview(data)
    yield memoryview(Bytes(data))
    yield memoryview(at_a_page(data))
    yield memoryview(at_a_page(data[::-1], ctypes.c_ubyte))[::-1]
    yield memoryview(at_a_page(bytes(byte for pair in zip(data, data[::-1]) for byte in pair), ctypes.c_ubyte))[::2]
    yield memoryview(data).cast("B", [3, len(data) // 3])
    yield memoryview((ctypes.c_char * len(data) * 1).from_buffer_copy(data))
    yield memoryview(type("Whole", (ctypes.Structure,), {"_fields_": [("all", ctypes.c_char * len(data))]}).from_buffer_copy(data))
    even = data + b"#" * (len(data) % 2)
    yield memoryview(at_a_page(even, ctypes.c_uint16))
    yield memoryview(even).cast("H")


def check_file(body, verdict=GROUP_OF_ALL, sitemaps=("/s.xml",)):
    robots = Site(body)
    assert robots.verdict("/a", "other") == verdict and robots.sitemaps == list(sitemaps), body
    assert pickle.loads(pickle.dumps(robots)).verdict("/a", "other") == verdict
    if not isinstance(body, str):
        assert Matrix(["/a"], ["other"]).denials(body) == [("other", "/a", verdict.line)] * (not verdict)


def check_files():
    check_file(Bytes(FILE))
    check_file(bytes_at_a_page(FILE))
    check_file(Text(FILE.decode()))
    for view in views(FILE):
        check_file(view)
    for empty in [memoryview(b"")[::-1], memoryview((ctypes.c_char * 0)()), memoryview((ctypes.c_int * 0 * 3)())]:
        check_file(empty, Verdict(True, None), [])
    long = FILE + b"#" * (FILE_LIMIT - len(FILE)) + b"\nSitemap: /beyond"
    for view in [memoryview(long), memoryview(long[::-1])[::-1], memoryview(long + b"#" * (len(long) % 2)).cast("H")]:
        check_file(view)
        assert repr(Site(view)) == f"<Site of {FILE_LIMIT} bytes>"


def check_texts():
    robots = Site(FILE)
    assert robots.verdict("/a", "FerrisBot") == OWN_GROUP
    for _ in range(2):
        assert robots.verdict(Text("/a"), Text("other")) == GROUP_OF_ALL and robots.verdict("/a", "FerrisBot") == OWN_GROUP
        assert robots.verdict_within(Text("/a"), Text("other"), robots.cost(2, "other")) == GROUP_OF_ALL
        assert robots.verdicts(Texts(map(Text, ["/a", "/", "/a"])), Text("other")) == [GROUP_OF_ALL, Verdict(True, None), GROUP_OF_ALL]
        assert robots.matrix(Texts([Text("/a"), "/a\n"]), Texts([Text("other"), "FerrisBot"])) == [[GROUP_OF_ALL] * 2, [OWN_GROUP] * 2]
    assert Matrix(Texts([Text("/a"), "/"]), [Text("other")]).denials(FILE) == [("other", "/a", 4)]
    assert robots.delay(Text("other")) is None and not robots.is_named(Text("other")) and robots.is_named(Text("ferrisbot"))
    assert robots_url(Text("https://example.com/a")) == "https://example.com/robots.txt" and product_token(Text("a/1")) == "a"
    errors = 0
    for call in [lambda: robots.allowed("/a", Text("a/1")), lambda: robots.delay(Text("/")), lambda: Matrix([Text("/\n")], ["a"])]:
        try:
            call()
        except ValueError:
            errors += 1
    for call in [Site, Matrix(["/a"], ["a"]).denials]:
        for kind in [bytes, bytearray, memoryview, str]:
            try:
                call(false_type(kind))
            except TypeError:
                errors += 1
    assert errors == 11


def check_sizes_that_change(turns):
    """A bytearray that another thread resizes, and buffers that the caller resizes and closes later."""
    body, is_over = bytearray(FILE), threading.Event()

    def resize():
        while not is_over.is_set():
            try:
                body.extend(b"#" * 100_000)
                del body[len(FILE) :]
            except BufferError:
                pass

    thread = threading.Thread(target=resize)
    thread.start()
    for _ in range(turns):
        check_file(body)
    is_over.set()
    thread.join()
    with mmap.mmap(-1, mmap.PAGESIZE) as mapped:
        mapped[: len(FILE)] = FILE
        with memoryview(mapped) as view:
            robots = Site(view)
    body.clear()
    view = memoryview(FILE)
    view.release()
    try:
        Site(view)
    except ValueError:
        assert robots.verdict("/a", "other") == GROUP_OF_ALL
    else:
        raise AssertionError("a buffer that is released")


check_files()
check_texts()
check_sizes_that_change(int(sys.argv[1]))
print("right")
