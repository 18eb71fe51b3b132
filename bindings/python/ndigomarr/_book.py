"""Settings with versions: which map used which."""
import ctypes

from ._lent import octet, word
from ._library import LIBRARY, accepted
from ._settings import Settings

_RECORD, _VERSIONS = 43, 255


class _Body(ctypes.LittleEndianStructure):
    """The 41 settings bytes of the job form's second edition."""

    _pack_ = 1
    _fields_ = [
        *((name, ctypes.c_uint8) for name in ("k", "squish", "one_to_one", "full")),
        *((name, ctypes.c_uint32) for name in ("maxpaths", "maxnodes", "fnmax", "pileupmax", "minkfreq")),
        *((name, ctypes.c_float) for name in ("sizesim", "seqsim", "fpenalty", "gpenalty")),
        ("letters", ctypes.c_uint8),
    ]


def _held(value, kind):  # type: ignore[no-untyped-def]
    """A value as the body holds it; a k or letters that no byte holds become 255, which is refused as any other wrong one."""
    return float(value) if kind is ctypes.c_float else octet(value) if kind is ctypes.c_uint8 else word(value)


def _bytes_of(settings: Settings) -> ctypes.Array:
    body = _Body(**{name: _held(getattr(settings, name), kind) for name, kind in _Body._fields_})
    return (ctypes.c_uint8 * 41).from_buffer_copy(bytes(body))


def _settings_of(data: bytes) -> Settings:
    body = _Body.from_buffer_copy(data)
    flags = ("squish", "one_to_one", "full")
    return Settings(**{name: bool(getattr(body, name)) if name in flags else getattr(body, name) for name, _ in _Body._fields_})


class Book:
    """Settings under versions 1, 2, 3 and on to 255. Reading one gives the settings saved under it, whatever was saved later.

    >>> book = Book()
    >>> book.save(Settings()), book.save(Settings(k=5)), book.restore(1)
    (1, 2, 3)
    >>> len(book), book.read(2).k, book.read(3).k
    (3, 5, 4)
    """

    def __init__(self, data: bytes = b"") -> None:
        """A book of no versions, or the one that these bytes hold. Refused by 48."""
        self._bytes = (ctypes.c_uint8 * (_VERSIONS * _RECORD))()
        given = (ctypes.c_uint8 * len(data)).from_buffer_copy(data)
        # asked for a version that is never there, a sound book answers 45 and a broken one 48
        number = LIBRARY.nd_book_read(given, len(given), 0, (ctypes.c_uint8 * 41)())
        accepted(0 if number == 45 else number)
        places = range(0, len(data), _RECORD)
        self._versions = next((place // _RECORD for place in places if not data[place]), len(places))
        ctypes.memmove(self._bytes, given, self._versions * _RECORD)

    def __len__(self) -> int:
        return self._versions

    def __bytes__(self) -> bytes:
        return bytes(self._bytes[:self._versions * _RECORD])

    def save(self, settings: Settings) -> int:
        """Saves the settings under the next version, which it gives back. Refused by 24, 1 to 3 and 46; nothing is changed then."""
        version = ctypes.c_uint32()
        accepted(LIBRARY.nd_book_save(self._bytes, len(self._bytes), _bytes_of(settings), ctypes.byref(version)))
        self._versions = version.value
        return version.value

    def read(self, version: int) -> Settings:
        """The settings saved under a version. Refused by 45 for one that isn't there, 0 among them."""
        settings = (ctypes.c_uint8 * 41)()
        accepted(LIBRARY.nd_book_read(self._bytes, len(self._bytes), word(version), settings))
        return _settings_of(bytes(settings))

    def restore(self, version: int) -> int:
        """Saves the settings of a version again, under the next, which it gives back. Refused by 45 and 46."""
        added = ctypes.c_uint32()
        accepted(LIBRARY.nd_book_restore(self._bytes, len(self._bytes), word(version), ctypes.byref(added)))
        self._versions = added.value
        return added.value
